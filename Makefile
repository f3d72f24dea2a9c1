# What can be done here: `make help` lists it.
.ONESHELL:
.SILENT:
.SHELLFLAGS = -ec
.PHONY: help build prove check trials install uninstall dist deb bench bench-clients bench-kept clean icserve
PREFIX = $(HOME)/.local
# Where below PREFIX this Python looks for packages.
PACKAGES = $(shell python3 -c 'import sysconfig; print(sysconfig.get_path("purelib", "posix_prefix", {"base": ""}).lstrip("/"))')

help: # lists these
	sed -n 's/^\([a-z-]*\): #/make \1: /p' Makefile
build: # builds the program, nothing proved, in two minutes; the first ./icserve does so too
	ICSERVE_BUILD=unproved ./icserve
prove: # proves and builds the program, in half an hour to an hour; ./icserve then runs it
	ICSERVE_BUILD=proved ./icserve
check: # the gate, ./gate: proves all from nothing, and tries edits, rows and the program
	./gate
trials: # tries the program that ./icserve runs
	program="$$(ICSERVE_BUILD=found ./icserve)"
	ICSERVE="$$program" python3 trials
install: # copies the program, scripts, pages, library and package below PREFIX (~/.local)
	to="$(DESTDIR)$(patsubst ~/%,$(HOME)/%,$(PREFIX))"
	program="$$(ICSERVE_BUILD=found ./icserve)"
	install -vD "$$program" "$$to/bin/icserve"
	for it in film listen send page; do install -vD $$it "$$to/bin/icserve-$$it"; done
	python3 share/pages.py "$$to/bin/icserve" "$$to"
	install -vDm 644 -t "$$to/$(PACKAGES)/icserve" python/icserve/*.py python/icserve/py.typed
	install -vDm 644 -t "$$to/$(PACKAGES)/icserve/page" python/icserve/page/*.*
	install -vDm 644 -t "$$to/share/icserve/lib" lib/*.rich
	install -vDm 644 -t "$$to/share/icserve/examples" examples/*
	install -vD -t "$$to/share/icserve/cluster" cluster/*
uninstall: # removes from PREFIX what install puts there
	from="$(DESTDIR)$(patsubst ~/%,$(HOME)/%,$(PREFIX))"
	for it in icserve icserve-film icserve-listen icserve-send icserve-page; do
	    rm -fv "$$from/bin/$$it" "$$from/share/man/man1/$$it.1" "$$from/share/bash-completion/completions/$$it" \
	        "$$from/share/zsh/site-functions/_$$it" "$$from/share/fish/vendor_completions.d/$$it.fish"
	done
	rm -rfv "$$from/$(PACKAGES)/icserve" "$$from/share/icserve"
dist: # makes a release in out/dist: an archive and a package (UNPROVED=1: not proved)
	at=out/icserve name=icserve-unproved
	if [ -n "$(UNPROVED)" ]; then
	    ICSERVE_BUILD=unproved ./icserve
	else
	    at="$$(ICSERVE_BUILD=found ./icserve)" name=icserve
	    case $$at in */crates/icserve/out/icserve) ;; *) echo "make dist: the proved program isn't there: make prove proves it, and UNPROVED=1 takes another" >&2; exit 1 ;; esac
	fi
	rm -rf out/dist
	python3 share/dist.py "$$at" $$name out/dist
deb: # makes the same: the package of Debian stands beside the archive
	$(MAKE) dist
bench: # times the program, beside a plain one of C, and tells their memory (WITH=--help tells of more)
	mkdir -p out
	! command -v cc >/dev/null || cc -O2 -o out/plain bench/plain.c
	program="$$(ICSERVE_BUILD=found ./icserve)"
	python3 bench "$$program" $$([ ! -x out/plain ] || echo --plain out/plain) $(WITH)
bench-clients: # times a server of 1, 8 and 64 clients, and rounds by several threads
	mkdir -p out
	! command -v cc >/dev/null || cc -O1 -shared -fPIC -o out/shim.so trials/shim.c -ldl -lpthread
	program="$$(ICSERVE_BUILD=found ./icserve)"
	python3 bench/clients.py "$$program" $$([ ! -x out/shim.so ] || echo --shim out/shim.so) $(WITH)
bench-kept: # times reductions that are kept beside those that aren't, by one thread and by several; WITH=.. hands on words
	program="$$(ICSERVE_BUILD=found ./icserve)"
	python3 bench/kept.py "$$program" $(WITH)
clean: # removes what was built, and what is kept of proofs
	rm -rf out crates/*/out

# The launcher's: proves first what nearly all stands on, each crate by several processes, and then each library as soon as those
# that it uses are there. What is kept to check a crate sooner after an edit stays only where there was some, or no proof is.
icserve: export PATH := $(PATH):/opt/rattle/bin
icserve:
	cd crates/icserve
	log="$(CURDIR)/crates/icserve/out/build.log" had=" $$(echo ../*/out/incremental) "
	{ (cd ../ic_flat_round && rt lib) || true; rt all check --jobs $$((2 * $$(nproc))); } 2>&1 </dev/null | tee "$$log" |
	    sed -un '/^== summary/! s/^== //p' | while read -r it; do
	    echo "icserve: checked $$it" >&2
	    case $$had in *" ../$$it/out/incremental "*) ;; *) [ ! -e ../$$it/out/rlib/stamp ] || rm -rf ../$$it/out/incremental ;; esac
	done
	tail -n 1 "$$log" | grep -q '^\([0-9]*\) of \1 crates ok$$' && rt run -- --help >>"$$log" 2>&1 </dev/null && exit
	grep -v ': ok$$\|: not run, since ' "$$log" | tail -n 5 >&2
	echo "icserve: it could not be proved and built; see $$log" >&2; exit 1
