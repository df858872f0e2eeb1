# make run                          the main job: the verdict on a sample job and certificate
# make test                         every proof and every test
# make lib                          target/staticlib/libvorruda.a and libvorruda_list.a, for hosts to link
# make install PREFIX=/usr/local    the command vorruda with its man page and routines, headers, libraries, pkg-config files, pages and examples; DESTDIR is honoured
# make try ROUTINE=name-or-file     from a routine as text to a verdict; without ROUTINE, the routines there are;
#                                   with CERTIFICATE=file the verdict on a certificate of one's own, ROUTINE being text or a job's bytes;
#                                   with THEN=name-or-file two listings as one, the second behind the first
# make report ROUTINE=name-or-file  a page to look at; without ROUTINE, or with a folder, a table and a page for each routine;
#                                   with THEN=name-or-file one page of two listings as one
# make release FOLDER=folder        the verdict on each routine's job.bin and cert.bin below a folder, and the release sheet
# make bench                        the benchmarks

export PATH := $(PATH):/opt/rattle/bin

PREFIX ?= /usr/local
export PREFIX DESTDIR

.PHONY: run test lib install try report release bench

run:
	@scripts/run.sh

test:
	@scripts/test.sh

lib:
	@scripts/lib.sh
	@echo target/staticlib/libvorruda.a target/staticlib/libvorruda_list.a

install:
	@scripts/lib.sh
	@scripts/install.sh

# Status 1 says that there is no certificate, which is an answer.
try:
	@scripts/lib.sh
	@scripts/tool.sh try $(if $(ROUTINE),"$(ROUTINE)") $(if $(THEN),then "$(THEN)") $(if $(CERTIFICATE),"$(CERTIFICATE)") || { status=$$?; [ $$status -eq 1 ] || exit $$status; }

report:
	@scripts/lib.sh
	@scripts/tool.sh report $(if $(ROUTINE),"$(ROUTINE)") $(if $(THEN),then "$(THEN)")

release:
	@scripts/release.sh "$(FOLDER)"

bench:
	@scripts/lib.sh
	@scripts/bench.sh
