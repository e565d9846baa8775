# `make example`, `make serve`, `make gate` and `make install`; `make bench` measures, `make boto`, `make clients`, `make kills`, `make simulate`, `make broken` and `make crowds` try more of the programs.
.PHONY: example gate program serve install bench boto clients kills simulate broken crowds

PREFIX = /usr/local
SEED = 1

gate:
	.ci/run

# All programs: `ebsd` serves, and `replay` is `ebs` by a clock of its own.
program:
	python3 tools/program ebs ebsd replay

# Serves until a signal; a new folder gets a store with a secret of its own.
PORT = 8080
WORKERS = 8
FOLDER = images
serve: program
	python3 examples/server crates/ebsd/out/ebsd
	mkdir -p $(FOLDER)
	test -e $(FOLDER)/ebs-data || (cd $(FOLDER) && $(CURDIR)/crates/ebs/out/ebs init --secret "$$(python3 -c 'import secrets; print(secrets.token_hex(32))')")
	cd $(FOLDER) && exec $(CURDIR)/crates/ebsd/out/ebsd $(PORT) $(WORKERS)

install: program
	install -D crates/ebs/out/ebs $(DESTDIR)$(PREFIX)/bin/ebs
	install -D crates/ebsd/out/ebsd $(DESTDIR)$(PREFIX)/bin/ebsd
	install -D -m 644 docs/ebs.1 $(DESTDIR)$(PREFIX)/share/man/man1/ebs.1
	install -D -m 644 docs/ebsd.1 $(DESTDIR)$(PREFIX)/share/man/man1/ebsd.1
	install -D -m 644 tools/completion/ebs $(DESTDIR)$(PREFIX)/share/bash-completion/completions/ebs
	install -D -m 644 tools/completion/ebsd $(DESTDIR)$(PREFIX)/share/bash-completion/completions/ebsd
	install -d $(DESTDIR)$(PREFIX)/lib/systemd/system
	sed 's,/usr/local/,$(PREFIX)/,' examples/ebsd.service > $(DESTDIR)$(PREFIX)/lib/systemd/system/ebsd.service

# Of the programs it needs two.
example:
	python3 tools/program ebs replay
	python3 examples/backup crates/ebs/out/ebs
	python3 examples/share crates/ebs/out/ebs
	python3 examples/lock crates/ebs/out/ebs
	python3 examples/volume crates/ebs/out/ebs
	python3 examples/bin crates/ebs/out/ebs
	python3 examples/policy crates/replay/out/replay
	python3 examples/boto3 crates/ebs/out/ebs

# Needs Debian's packages socat and python3-boto3.
boto: program
	/usr/bin/python3 examples/boto crates/ebs/out/ebs
	/usr/bin/python3 examples/boto crates/ebsd/out/ebsd

# Needs Debian's packages awscli, curl and haproxy.
clients: program
	python3 examples/awscli crates/ebsd/out/ebsd
	python3 examples/fleet crates/ebsd/out/ebsd

kills: program
	python3 tools/kill_program crates/ebs/out/ebs
	python3 tools/walk_collections crates/ebs/out/ebs

# Needs a C compiler. Plays SEEDS seeds of 2500 calls each, from SEED on: `make simulate SEEDS=4000` is 10,000,000 calls. With HOURS it goes on so long.
SEEDS = 40
simulate: program
	python3 tools/simulate crates/ebs/out/ebs crates/replay/out/replay $(SEED) --calls 2500 $(if $(HOURS),--hours $(HOURS),--seeds $(SEEDS))

broken: program
	python3 tools/broken_messages crates/ebs/out/ebs --seed $(SEED)

crowds: program
	python3 tools/serve_many crates/ebsd/out/ebsd crates/replay/out/replay $(SEED)
	python3 tools/kill_server crates/ebsd/out/ebsd
	python3 tools/end_journals crates/ebsd/out/ebsd
	python3 tools/crowd crates/ebsd/out/ebsd

bench:
	python3 tools/program ebs ebsd replay hash_bench journal_bench lineages store_bench
	python3 bench/session crates/ebs/out/ebs
	python3 bench/disk crates/ebs/out/ebs
	python3 bench/volumes crates/ebs/out/ebs
	python3 bench/lists crates/ebs/out/ebs
	python3 bench/starts crates/ebs/out/ebs
	python3 bench/accounts crates/ebs/out/ebs
	python3 bench/policies crates/replay/out/replay
	python3 bench/journal crates/journal_bench/out/journal_bench
	python3 bench/lineages crates/lineages/out/lineages
	python3 bench/collect crates/ebs/out/ebs crates/lineages/out/lineages crates/store_bench/out/store_bench
	python3 bench/server crates/ebsd/out/ebsd
	python3 bench/checkpoint crates/ebs/out/ebs
