# make play < FILE plays records; make test runs every test. The Rattle gate runs last, so its line and exit status are the whole's.
.PHONY: play test host

play:
	@cd crates/records && rt run

test: host
	tools/gate

# The proved library and program against the independent implementation. Run on nothing, the program is built.
host:
	cd crates/boundary && rt lib
	cd crates/records && rt run </dev/null
	HOST_LIB=$(CURDIR)/crates/boundary/out RECORDS=$(CURDIR)/crates/records/out/records host/test.sh
