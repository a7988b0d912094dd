# The archive that both examples link, and where they are built. rt proves what is not proved yet before it writes the
# archive: in a fresh clone that is every crate below pool_c, and takes minutes.
ROOT := ../..
OUT := $(ROOT)/target/examples
ARCHIVE := $(ROOT)/crates/pool_c/out/libpool_c.a

$(ARCHIVE): $(wildcard $(ROOT)/crates/*/src/*.rt)
	cd $(ROOT)/crates/pool_c && rt lib
