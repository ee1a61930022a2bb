# What the scripts of this repository share, for bash. They change to the repository's root and source this file before they do anything else.
# What takes long shows its progress on standard error, so that standard output has the results alone.

# NAME...: commands that a script needs. Those that are missing are installed where that can be done, on Debian as root; where one cannot be had the script
# ends, and says what to do. Called before any work.
needs() {
  local name missing=() packages=() log
  for name; do command -v "$name" > /dev/null || missing+=("$name"); done
  for name in "${missing[@]}"; do [ "$name" = rt ] || packages+=("$name"); done
  if [ ${#packages[@]} -gt 0 ] && command -v apt-get > /dev/null && [ "$(id -u)" -eq 0 ]; then
    echo "installing Debian's packages: ${packages[*]}" >&2
    log=$(mktemp)
    { apt-get install -y "${packages[@]}" || { apt-get update && apt-get install -y "${packages[@]}"; }; } > "$log" 2>&1 < /dev/null || tail -n 3 "$log" >&2
    rm -f "$log"
    hash -r
  fi
  for name in "${missing[@]}"; do
    if ! command -v "$name" > /dev/null && [ -n "${outer_path-}" ] && PATH=$outer_path command -v "$name" > /dev/null; then
      echo "Debian's $name cannot be installed here: using $(PATH=$outer_path command -v "$name")" >&2
      PATH=$PATH:$outer_path
    fi
    command -v "$name" > /dev/null || lacking "$name"
  done
  for name; do
    case $name in
      python3) python3 -c 'import sys; sys.exit(sys.version_info < (3, 10))' || { echo "$0: Python 3.10 or later is needed; $(command -v python3) is older" >&2; exit 1; } ;;
      cargo) least_rust ;;
    esac
  done
}

lacking() {
  if [ "$1" = rt ]; then
    echo "$0: rt, the command of the Rattle toolchain, is not on the PATH (README.md names the version)" >&2
  else
    echo "$0: $1 is needed; on Debian: apt-get install $1" >&2
  fi
  exit 1
}

# The Rust of Debian 12 is enough.
least_rust() {
  local version
  version=$(rustc --version 2> /dev/null | sed -E 's/^rustc ([0-9]+)\.([0-9]+).*/\1 \2/')
  read -r major minor <<< "${version:-0 0}"
  [ "$major" -gt 1 ] || { [ "$major" -eq 1 ] && [ "$minor" -ge 63 ]; } || { echo "$0: rustc 1.63 or later is needed; here it is '$(rustc --version 2>&1)'" >&2; exit 1; }
}

# From here on only Debian's own commands are on the PATH, and rt: another copy of a command would hide that Debian's does not do. Does nothing elsewhere.
only_debian() {
  [ -f /etc/debian_version ] && command -v rt > /dev/null || return 0
  outer_path=$PATH
  rt_alone=$(mktemp -d)
  ln -s "$(command -v rt)" "$rt_alone/rt"
  export PATH=$rt_alone:/usr/sbin:/usr/bin:/sbin:/bin
}

# CRATE: it and the crates that it rests on, a line each.
crates_for() {
  awk -F: -v wanted="$1" '
    !/^#/ && NF > 1 { split($1, word, " "); on[word[1]] = $2 }
    END {
      list[1] = wanted; seen[wanted] = 1; n = 1
      for (i = 1; i <= n; i++) {
        print list[i]
        k = split(on[list[i]], part, " ")
        for (j = 1; j <= k; j++) if ((part[j] in on) && !seen[part[j]]++) list[++n] = part[j]
      }
    }' crates.txt
}

# How many crates are checked at a time: one for each processor, and 3 GB for each.
at_once() {
  local processors memory
  processors=$(nproc 2> /dev/null || echo 1)
  memory=$(awk '/^MemAvailable:/ { print int($2 / 3000000) }' /proc/meminfo 2> /dev/null)
  [ "${memory:-1}" -ge "$processors" ] || processors=${memory:-1}
  echo "$((processors > 0 ? processors : 1))"
}

# sofaduck|benchmark|step80: target/staticlib/libsofaduck.a, target/staticlib/libbenchmark.a or target/bin/step80 is proved and built, with a line for each
# crate as it is proved and the number of those that come after it. What was proved before and has not changed since is not proved again. All that rt says is
# in target/progress, under the same name.
proved() {
  local crate=$1 file=lib$1.a made=staticlib/lib$1.a progress=target/progress/$1 name part all=0 new=0 began=$SECONDS sources=(crates.txt)
  needs rt
  case $1 in
    # A crate is a library for other crates or one for C, and `sofaduck` is used by `benchmark`.
    sofaduck) crate=sofaduck_c file=libsofaduck_c.a ;;
    step80) file=step80 made=bin/step80 ;;
  esac
  for name in $(crates_for "$crate"); do
    all=$((all + 1))
    [ "$name" = "$crate" ] || [ -e "crates/$name/out/rlib/stamp" ] || new=$((new + 1))
    for part in src specs proofs; do [ ! -d "crates/$name/$part" ] || sources+=("crates/$name/$part"); done
  done
  # rt lib checks and compiles the crate itself at each call, even where nothing changed.
  if [ "$(cat "$progress.made" 2> /dev/null)" = "$(rt version)" ] && [ -e "target/$made" ] &&
    [ -z "$(find "${sources[@]}" -newer "$progress.made" -print -quit)" ]; then return; fi
  if [ "$new" -gt 0 ]; then
    echo "proving $1: $new of the $((all - 1)) crates that it rests on are not proved here yet. First all are read, then each takes 5 to 60 seconds, $(at_once) at a time" >&2
  else
    echo "building target/$made: half a minute, and what its crates take that changed" >&2
  fi
  mkdir -p target/progress target/staticlib target/bin
  rm -f "$progress.failed"
  touch "$progress.began"
  {
    (
      cd "crates/$crate" || exit
      [ "$new" -eq 0 ] || rt all check --jobs "$(at_once)" || exit
      if [ "$crate" = step80 ]; then rt run < stdin > /dev/null; else rt lib; fi
    ) 2>&1 || touch "$progress.failed"
  } | tee "$progress" | awk -v all="$all" -v new="$new" '
    # rt all says a crate as it is done, and then what its check said; rt lib and rt run say it as they begin.
    /^== summary$/ { if (new) { print "  building"; fflush() } new = -1; name = ""; next }
    /^== / { name = $2; done++; next }
    /^rt: chose --jobs [0-9]+ for / { name = $NF; if (!new) { print "  proving " name; fflush() } }
    /^logic=proved/ { if (new > 0) { printf "  %s proved, %d to go\n", name, all - done; fflush() } }
    /^logic=not-proved/ { print "  " name " NOT PROVED"; fflush() }
    /^rt: .*waiting for / || /^rt: note: the disk / { print "  " $0; fflush() }' >&2
  if [ ! -e "$progress.failed" ] && cp "crates/$crate/out/$file" "target/$made.new" && mv "target/$made.new" "target/$made"; then
    rt version > "$progress.made"
    # What was edited meanwhile is built the next time.
    touch -r "$progress.began" "$progress.made"
  else
    rm -f "$progress.made"
    { grep -E '(^|: )error|^rt: |: failed' "$progress" || cat "$progress"; } | tail -n 20 >&2
    echo "$0: $1 is not proved; $progress has all that rt said. One crate is checked by: cd crates/NAME && rt check" >&2
    exit 1
  fi
  if [ "$new" -gt 0 ]; then echo "proved: $1, in $((SECONDS - began)) seconds" >&2; fi
}

# PROGRAM...: programs of apart/ are built, in target/apart/release. `compare` and `runner` are linked with the proved library, which has to be there,
# and `compare` with that of `benchmark` too.
built() {
  local program options=()
  for program; do options+=(--bin "$program"); done
  mkdir -p target/progress
  if ! cargo build --release --offline --manifest-path apart/Cargo.toml --target-dir target/apart "${options[@]}" > target/progress/cargo 2>&1; then
    cat target/progress/cargo >&2
    echo "$0: $* cannot be built from apart/ with $(rustc --version) (1.63 or later is needed); nothing was compared" >&2
    exit 1
  fi
}
