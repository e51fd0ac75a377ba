.PHONY: serve test demo build quick plants planted safety

# The program's crate, and the sample files in its folder data/.
SERVER = crates/fmrcd
FIRST = gfs_20240101_0000.nc
LATER = gfs_20240101_0600.nc
WORDS = once --name gfs --proto $(FIRST) put:$(FIRST) put:$(LATER) ask:3
TRY = rt try --data $(FIRST)=data/$(FIRST) --data $(LATER)=data/$(LATER) --

# The program that targets run; without it, that of `make build`, which is made where it is missing or may be old.
PROGRAM =

# The port of `make serve`.
PORT = 8080

# Serves the sample files, says what can be opened and how, and waits. The program is built where there is none.
serve: $(or $(PROGRAM),$(SERVER)/out/fmrcd)
	@tests/serve.sh $< $(PORT)

$(SERVER)/out/fmrcd:
	$(MAKE) build

# The merge gate: every proof from nothing, every must-fail edit, every test, and the program's stored run.
test:
	.ci/run

# Runs the program on the sample data, once for three requests over two runs and once to check a file, compiled with
# checks and not proved, so that it answers within minutes. Data is shown by `cat -v`.
demo:
	@echo "These runs are compiled with checks and prove nothing; 'make build' proves the program."
	@echo "Three requests:"; cat $(SERVER)/data/demo.requests
	@echo "The replies:"
	@mkdir -p $(SERVER)/out
	@cd $(SERVER) && $(TRY) $(WORDS) < data/demo.requests > out/demo.replies && tr -d '\r' < out/demo.replies | cat -v
	@echo; echo "A check of a file:"
	@cd $(SERVER) && $(TRY) check $(FIRST)

# Proves the program and links it as $(SERVER)/out/fmrcd. It is the gate that does so: `rt run` would prove all crates in
# one process, one after the other, and takes 7 GB of memory.
build:
	@command -v rt > /dev/null || { echo "The toolchain rt isn't here: see README.md, What is trusted" >&2; exit 2; }
	.ci/run
	@echo "The proved program is $(SERVER)/out/fmrcd."

# Every test and row, compiled with checks and not proved, and the page on safety.
quick:
	tests/quick.sh

# The wrong bodies that the gate leaves out: the prover has to refuse each.
plants:
	bench/plants.sh

# The bodies that say for large input that memory ran out, which only running can refuse. All is built unproved.
planted:
	bench/planted_memory.sh

# Compares the page on safety with the public calls of each crate.
safety:
	tests/safety_page.sh

# Each target below runs the program by the line of its name. The program is built first where PROGRAM names none.
LINES = package installs exits clients recipes proxy page restart faults limits memory fuzz day beside many speed first
LINES += cluster collections
BUILT = $(or $(PROGRAM),$(SERVER)/out/fmrcd)

.PHONY: $(LINES)
$(LINES): $(if $(PROGRAM),,build)
	$($@)

# Makes the Debian package package/out/fmrcd_VERSION_amd64.deb.
package = package/build.sh $(BUILT)

# Installs the package in a fresh system, serves there, and removes it.
installs = tests/package.sh $(BUILT)

# Runs the program as a person would, and compares exit statuses and lines; reads replies back by `pull`; and serves
# more clients than descriptors.
exits = tests/exits.sh $(BUILT) && tests/pull.sh $(BUILT) && bench/few_descriptors.sh $(BUILT)

# Reads from the program by the clients that users have, which it installs from the machine's Debian registry.
clients = clients/clients.sh $(BUILT)

# Runs the recipes of docs/USING.md by tools that it installs from there, and serves what comes out.
recipes = clients/recipes.sh $(BUILT)

# Runs two servers behind nginx, with docs/nginx.conf, and compares their replies.
proxy = bench/proxy.sh $(BUILT)

# Opens the page web/index.html in headless Chromium, and compares what it shows with the files of a server.
page = tests/page.sh $(BUILT)

# Kills the program and starts it again, with fmrcd-bring-back: what it held comes back.
restart = tests/bring_back.sh $(BUILT)

# Fails each system call that the worker of a folder makes, and sees whether the folder mends itself; and the calls by
# which connections are taken.
faults = tests/faults.sh $(BUILT)

# Runs the program at each of its limits.
limits = tests/limits.sh $(BUILT)

# Lets memory run out under the program, and under a publisher with threads, at each request for it in turn.
memory = bench/out_of_memory.sh $(BUILT) && bench/refused_publisher.sh

# Fuzzes the program by files and by streams of requests, in each of four ways for some time.
SECONDS = 3600
fuzz = bench/fuzz.sh $(BUILT) $(SECONDS)

# Runs four servers through a day of some minutes, with clients and faults.
MINUTES ?= 60
day = bench/day.sh $(BUILT) $(MINUTES)

# Tries what feeds several servers from one spool. Then three servers are fed so behind nginx, with clients and faults,
# and one to three of them are measured.
cluster = tests/feed.sh && bench/cluster.sh $(BUILT)

# Measures the program beside nginx, which sends files of the same bytes.
beside = bench/beside_nginx.sh $(BUILT)

# The same while 10,000 connections are idle and 1,000 readers are slow. With `WORKERS=1` the targets `clients`, `proxy`
# and `restart` have one worker a server, so that it holds all their connections.
many = bench/many_links.sh $(BUILT)

# Serves two collections by one server while files arrive in both, and compares each reply.
collections = bench/two_collections.sh $(BUILT)

# Measures slabs, editions, the memory of a plan and dear requests, each with its aims.
speed = bench/speed.sh $(BUILT)

# Does `make serve` in a fresh clone, and opens what it says; and types the lines of README.
first = tests/first_command.sh $(BUILT)
