# `make try` builds the program without a proof, in minutes, and shows it at work; nothing that it shows is proved. `make demo` builds the
# proved program, stops it in the middle of the example and plays on, and does the same with a server over UDP;
# `make test` is the merge gate; `make rows` runs the commands of rows/ over the proved program; `make edits` tries each wrong body of edits/, or those of some
# crates (`make edits NAMES="lease_disk pcp_codec"`), which the prover must refuse; `make index` writes what documents say of the tree anew;
# `make help` prints the program's usage. `make install`
# puts the proved program, its page, units for systemd, and examples for them and for a relay's firewall below DESTDIR and PREFIX.
.PHONY: try demo test rows edits index help install

PREFIX = /usr/local

try:
	@python3 examples/try.py

demo:
	@cd crates/pcp && rt run -- --version
	@bash examples/demo.sh crates/pcp/out/pcp
	@python3 examples/serve_demo.py crates/pcp/out/pcp

test:
	bash .ci/run

rows:
	@cd crates/pcp && rt run -- --version
	@.ci/rows

edits:
	@.ci/edits $(NAMES)

index:
	@.ci/index --write

help:
	@cd crates/pcp && rt run -- --help

install:
	@cd crates/pcp && rt run -- --version
	install -D -m 755 crates/pcp/out/pcp $(DESTDIR)$(PREFIX)/bin/pcp
	install -D -m 644 docs/pcp.8 $(DESTDIR)$(PREFIX)/share/man/man8/pcp.8
	for unit in pcp.service pcp@.service; do \
	  sed 's|/usr/local|$(PREFIX)|' "examples/$$unit" >"crates/pcp/out/$$unit" && \
	  install -D -m 644 "crates/pcp/out/$$unit" "$(DESTDIR)$(PREFIX)/lib/systemd/system/$$unit" || exit 1; \
	done
	install -D -m 644 examples/server.toml $(DESTDIR)$(PREFIX)/share/doc/pcp/server.toml
	install -D -m 755 examples/nft_ports.sh $(DESTDIR)$(PREFIX)/share/doc/pcp/nft_ports.sh
	install -D -m 644 examples/first.toml $(DESTDIR)$(PREFIX)/share/doc/pcp/first.toml
	install -D -m 644 examples/site.env $(DESTDIR)$(PREFIX)/share/doc/pcp/site.env
	install -D -m 644 examples/relay.nft $(DESTDIR)$(PREFIX)/share/doc/pcp/relay.nft
