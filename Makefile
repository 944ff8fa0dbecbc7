# `make` alone prints the targets.

KIT := $(shell command -v rt 2>/dev/null)
PROGRAM := crates/registry_main
STORIES := crates/registry_tests_stories
EXAMPLE := examples/lab-kit-1.0.0.publish.json
PACKUMENT := examples/lab-kit-1.0.0.packument.json
BODY := $(EXAMPLE)
FILES := *.txt
EVERY := 1
JOBS := 1
SECONDS := 600

.PHONY: help demo quick run build test check stories stops plants docs fmt npm npm-team front fronts names beside log socket image kill files older page limits large prices soak starve fuzz bench compare house copy installs examples kit

help:
	@echo 'Build:'
	@echo '  make demo     serves a new registry to try with npm: minutes, and nothing is proved'
	@echo '  make run      proves and builds the program, and publishes $(BODY)'
	@echo '  make build    proves and builds the program as out/registry'
	@echo
	@echo 'Test:'
	@echo '  make test     the gate: proves every crate from nothing, and runs every test and story'
	@echo '  make check    proves every crate over what earlier checks kept'
	@echo '  make quick    runs every test and story over builds without a proof (JOBS=2: two at once)'
	@echo '  make stories  runs the stories alone: FILES=tags.txt runs one file'
	@echo '  make stops    stops a disk at each of its calls, and changes a byte of a page that is read'
	@echo '  make plants   tries each wrong body that was not tried since it changed'
	@echo '  make fmt      formats the files'
	@echo '  make docs     writes out/docs: each public call with its clauses, and each wrong body'
	@echo
	@echo 'Try the built program out/registry:'
	@echo '  make npm      publishes and installs with the stock npm client: a minute'
	@echo '  make npm-team runs all that npm offers a team, directly and through nginx: 4 minutes; it needs nginx'
	@echo '  make front    the same through nginx with TLS, hostile clients, public packages: 3 minutes; it needs nginx'
	@echo '  make fronts   a further front that keeps answers and asks before each use: a minute; it needs nginx'
	@echo '  make names    names that mean something to nginx, on the list of the house: a minute; it needs nginx and sqlite3'
	@echo '  make page     looks at the page through nginx in headless Chromium: 4 minutes; it needs both'
	@echo '  make beside   runs commands beside a server, and kills, halts and stops it meanwhile: 4 minutes'
	@echo '  make socket   serves at a Unix socket: who may connect, takeovers, stops: ten seconds'
	@echo '  make image    makes the root of a container image, and serves in it: ten seconds; it needs root'
	@echo '  make log      keeps a log of requests: moves it away, and fills its disk: half a minute'
	@echo '  make kill     kills a server 500 times while 16 clients publish at once: 7 minutes'
	@echo '  make files    fills a disk, opens files that hold no registry, and restores copies'
	@echo '  make older    migrates files of older schemas, and kills that at any moment: two minutes'
	@echo '  make limits   tries the limits of connections, and hostile clients: 5 minutes'
	@echo '  make large    sends two million bytes of each thing, which must be refused soon'
	@echo '  make prices   asks each route and command its dearest input, beside a publish of 3.7 MB: 20 minutes'
	@echo '  make soak     runs a hundred clients for ten minutes: memory and answers must hold'
	@echo '  make starve   refuses each piece of memory in turn (EVERY=20: every 20th; JOBS=4: four at once)'
	@echo '  make fuzz     fuzzes it with afl++ for ten minutes (SECONDS=3600: an hour; 0: the examples alone)'
	@echo
	@echo 'Measure the built program out/registry:'
	@echo '  make bench    measures how long requests and the reading of bodies take: 5 minutes'
	@echo '  make compare  measures its speed beside nginx and SQLite: 15 minutes'
	@echo '  make house    measures registries of up to 10,000 packages: it needs 10 GB of disk'
	@echo '  make copy     measures what clients notice of a copy of 1 GB: it needs 2 GB of disk'
	@echo '  make installs measures what npm install fetches, cold and warm, also through nginx: 5 minutes'

kit:
ifeq ($(KIT),)
	@echo 'the Rattle kit is missing: put its command rt on the path' >&2
	@exit 1
endif

demo: kit
	@tools/demo

# There is a program in out/ only if this proof passes. It is run once, on the example.
build: kit
	@mkdir -p out
	@rm -f out/registry
	@tools/prove registry_main out/build.log < $(EXAMPLE) > /dev/null
	@cp $(PROGRAM)/out/registry_main out/registry

run: build
	@out/registry < $(BODY)

# The scripts run the program that is there, and prove nothing.
out/registry:
	@echo 'there is no program out/registry: make build proves and builds it' >&2
	@exit 1

npm: out/registry
	@examples/npm.sh out/registry

npm-team: out/registry
	@examples/npm_team.sh out/registry

front: out/registry
	@examples/front.sh out/registry

fronts: out/registry
	@examples/fronts.sh out/registry

names: out/registry
	@examples/names.sh out/registry

page: out/registry
	@examples/page.sh out/registry

beside: out/registry
	@examples/beside.sh out/registry

log: out/registry
	@examples/log.sh out/registry

image: out/registry
	@examples/image.sh out/registry

socket: out/registry
	@examples/socket.sh out/registry

kill: out/registry
	@tools/kill --program out/registry

files: out/registry
	@examples/refused_files.sh out/registry
	@examples/restore.sh out/registry

older: out/registry
	@tools/measure_older --program out/registry

limits: out/registry
	@tools/measure_limits --program out/registry

large: out/registry
	@tools/measure_large --program out/registry

prices: out/registry
	@tools/prices --program out/registry

soak: out/registry
	@tools/soak --program out/registry

starve: out/registry
	@tools/starve --program out/registry --every $(EVERY) --jobs $(JOBS)

fuzz: out/registry
	@tools/fuzz --program out/registry --seconds $(SECONDS)

compare: out/registry
	@echo 'measuring the program out/registry: this is no part of the gate' >&2
	@tools/measure_http --program out/registry
	@tools/measure_file --program out/registry

bench: out/registry
	@tools/measure_requests --program out/registry

house: out/registry
	@tools/measure_house --program out/registry

copy: out/registry
	@tools/measure_copy --program out/registry

installs: out/registry
	@tools/measure_installs --program out/registry

# A test may take ten minutes, since the prover works beside it.
test: kit examples
	@tools/check_listings
	@tools/check_pages
	@tools/prices --names > /dev/null
	@RT_SECONDS=600 tools/gate_times rt ci

quick: kit
	@tools/quick --jobs $(JOBS)

# Proves and builds the program that runs stories, and runs it on a copy of their files.
stories: kit
	@mkdir -p out
	@tools/prove registry_tests_stories out/stories.log < /dev/null > /dev/null
	@work=$$(mktemp -d); cp -r $(STORIES)/data/. $$work; \
	(cd $$work && $(CURDIR)/$(STORIES)/out/registry_tests_stories $(FILES)); \
	status=$$?; rm -rf $$work; exit $$status

# Its tests are in the gate, too.
stops: kit
	@cd crates/registry_tests_stops && rt test

plants: kit
	@tools/plants

# The gate runs the program on its own copies of the example.
examples:
	@cmp $(EXAMPLE) $(PROGRAM)/stdin
	@cmp $(PACKUMENT) $(PROGRAM)/stdout

docs:
	@tools/make_pages --docs

check: kit
	@rt all check

fmt: kit
	@for crate in crates/*/; do (cd $$crate && rt fmt) || exit 1; done
