#!/bin/bash
# Uses a mount as people do: cp, tar, rsync, getfacl and setfacl, find, git, make, SQLite and fio, and says what isn't as it was or as on the
# system's own file system.
#
#     bench/mount/clients.sh [PROGRAM [kernel]]
#
# With `kernel` Linux checks on the mount. Run by hand as root where there is /dev/fuse; takes some minutes, most of them syncs. A client that isn't
# installed is left out with a line.
# (its functions are called by the words of a case)
# shellcheck disable=SC2317
# shellcheck source-path=SCRIPTDIR source=shared.sh
. "$(dirname "$0")/shared.sh"
export HOME=$work GIT_CONFIG_GLOBAL=/dev/null GIT_CONFIG_NOSYSTEM=1
from=$work/from back=$work/back
checks=()
[ "${2-}" != kernel ] || checks=(kernel)
mkdir "$from" "$back"

# Whether these commands are there.
has() {
    local name
    for name; do
        if ! command -v "$name" >/dev/null; then
            echo "left out: $name isn't installed"
            return 1
        fi
    done
}

# Gives all below here times of whole seconds, which tar keeps, each another.
date_all() {
    local path seconds=1600000000
    find . -depth -mindepth 1 -print0 | while IFS= read -r -d '' path; do
        touch -d "@$seconds" "$path"
        seconds=$((seconds + 1000))
    done
}

# A tree with modes, owners, hard links, access control lists, times, and names of all kinds.
make_tree() {
    cd "$from" || return
    mkdir -p a/b/c empty "with space" set-group sticky
    head -c 200000 /dev/urandom >a/large
    echo small >a/b/small
    : >a/none
    ln a/b/small a/hard
    echo x >"with space/na me"
    echo u >"ümläut-文件"
    printf n >$'new\nline'
    echo p >100%
    echo q >%20
    mkdir -p "deep/$(printf 'd%.0s' $(seq 200))/$(printf 'e%.0s' $(seq 255))"
    chmod 751 a
    chown 1001:50 a/large
    chmod 640 a/large
    chmod 2775 set-group
    chmod 1777 sticky
    if command -v setfacl >/dev/null; then
        setfacl -m u:1001:rw,g:50:r a/b/small
        setfacl -d -m u:1002:rwx,g:60:rx a/b
    fi
    date_all
}

# What a tree has but times: kinds, modes, owners, links, sizes; access control lists. Links of directories are one here.
told_of() {
    (
        cd "$1" || exit
        find . -type d -printf '%p %y %m %U %G\n' -o -printf '%p %y %m %U %G %n %s\n' | sort
        if command -v getfacl >/dev/null; then
            find . -print0 | sort -z | xargs -0 getfacl -n
        fi
    )
}

# When all below was modified.
dates_of() {
    (cd "$1" && find . -mindepth 1 -printf '%p %T@\n' | sort)
}

alike() {
    told_of "$1" >"$work/one" && told_of "$2" >"$work/two" && diff "$work/one" "$work/two" && diff -r "$1" "$2"
}
same() {
    alike "$1" "$2" && dates_of "$1" >"$work/one" && dates_of "$2" >"$work/two" && diff "$work/one" "$work/two"
}

copies_in() { cp -a "$from" "$dir/copied" && same "$from" "$dir/copied"; }
copies_out() { cp -a "$dir/copied" "$back/copied" && same "$from" "$back/copied"; }
packs_in() {
    tar --acls -C "$from" -cf "$work/in.tar" . && mkdir "$dir/unpacked" &&
        tar --acls -C "$dir/unpacked" -xpf "$work/in.tar" && same "$from" "$dir/unpacked"
}
packs_out() {
    tar --acls -C "$dir/unpacked" -cf "$work/out.tar" . && mkdir "$back/unpacked" &&
        tar --acls -C "$back/unpacked" -xpf "$work/out.tar" && same "$from" "$back/unpacked"
}

# What rsync says that it changes, which is nothing where sizes, times, modes, owners and lists are equal.
synced() {
    rsync -aHAXi "$@" "$from/" "$dir/synced/"
}
syncs() { synced >"$work/list" && same "$from" "$dir/synced"; }
syncs_again() { [ -z "$(synced)" ]; }
syncs_a_change() {
    echo more >>"$from/a/none" && synced | grep -q '^>f\.st.* a/none$' && same "$from" "$dir/synced" && syncs_again
}
# One that leaves the size is told by its time, and one of the mount is undone.
syncs_a_change_of_time() {
    echo o >"$from/100%" && synced | grep -q '^>f\.\.t.* 100%$' && same "$from" "$dir/synced" && syncs_again &&
        echo undone >"$dir/synced/a/none" && touch -d @1700000000 "$dir/synced/a/large" && synced >"$work/list" &&
        grep -q ' a/none$' "$work/list" && grep -q '^[>.]f\.\.t.* a/large$' "$work/list" && same "$from" "$dir/synced" && syncs_again
}
syncs_a_removal() { rm -r "${from:?}/with space" && synced --delete && same "$from" "$dir/synced"; }

restores_lists() {
    cd "$dir/copied" && getfacl -nR . >"$work/lists" && setfacl -R -b . && ! getfacl -nR . | grep -q user:1001 &&
        setfacl --restore="$work/lists" && getfacl -nR . | diff - "$work/lists"
}
sets_a_list() {
    cd "$dir/copied/a" && setfacl -m u:7:rw large &&
        [ "$(getfacl -cn large | tr '\n' ' ')" = "user::rw- user:7:rw- group::r-- mask::rw- other::---  " ] &&
        setfacl -x u:7 large && setfacl -b large && setfacl -d -m u:8:rx . && setfacl -k . && [ -z "$(getfacl -cdn .)" ]
}

# What find finds here and there.
finds() {
    local tests
    for tests in "-type f" "-perm -2000" "-user 1001" "-type f -links 2" "-size +100k" "-empty" "-name *%*" "-newermt 2200-01-01"; do
        # shellcheck disable=SC2086
        diff <(cd "$from" && find . $tests | sort) <(cd "$dir/synced" && find . $tests | sort) || return
    done
    for tests in "-newer a/large" "-newermt @1600005000" "-not -newer a/large" "-mmin -60"; do
        # shellcheck disable=SC2086
        diff <(cd "$from" && find . -mindepth 1 $tests | sort) <(cd "$dir/synced" && find . -mindepth 1 $tests | sort) || return
    done
    [ -n "$(find "$dir/synced" -newer "$dir/synced/a/large")" ] && touch "$work/before" && sleep 0.1 && echo x >"$dir/newer" &&
        [ "$(find "$dir" -newer "$work/before")" = "$(printf '%s\n' "$dir" "$dir/newer")" ] && rm "$dir/newer"
}
removes_while_listing() {
    mkdir "$dir/many" && (cd "$dir/many" && seq 500 | xargs touch) && [ "$(find "$dir/many" -type f | wc -l)" = 500 ] &&
        find "$dir/many" -type f -delete && rmdir "$dir/many"
}

keeps_a_history() {
    mkdir "$dir/repository" && cd "$dir/repository" && git init -q . && git config user.email a@b && git config user.name a || return
    cp "$from/a/large" "$from/100%" .
    local round
    for round in 1 2 3; do
        echo "$round" >"file$round" && git add . && git commit -qm "$round" || return
    done
    [ -z "$(git status --porcelain)" ] && git checkout -q HEAD~1 && ! [ -e file3 ] && git checkout -q - && [ "$(cat file3)" = 3 ] &&
        echo longer >>file1 && [ "$(git status --porcelain)" = " M file1" ] && git checkout -q file1 &&
        echo 9 >file1 && [ "$(git status --porcelain)" = " M file1" ] && git checkout -q file1 && [ "$(cat file1)" = 1 ] &&
        touch file2 && [ -z "$(git status --porcelain)" ] && git diff-files --quiet &&
        git gc -q && git fsck --no-dangling && [ "$(git log --oneline | wc -l)" = 3 ]
}
clones() {
    cd "$dir" && git clone -q repository clone && cd clone && [ -z "$(git status --porcelain)" ] && [ "$(git log --oneline | wc -l)" = 3 ] &&
        diff -r --exclude=.git "$dir/repository" "$dir/clone"
}

# What make has made: only what is older than what it is made of.
has_made() {
    make -q all && [ "$(tr '\n' ' ' <made)" = "$*" ] && : >made
}
builds() {
    mkdir "$dir/built" && cd "$dir/built" &&
        printf 'all: two three\none: in\n\tcp in one; echo one >>made\ntwo: one\n\tcat one one >two; echo two >>made\nthree: other\n\tcp other three; echo three >>made\n' >Makefile &&
        echo text >in && echo other >other && make -s && has_made "one two three " && [ "$(cat two)" = "$(printf 'text\ntext')" ] &&
        make -s && has_made "" && echo new >in && ! make -q && make -s && has_made "one two " && [ "$(cat two)" = "$(printf 'new\nnew')" ] &&
        touch other && ! make -q && make -s && has_made "three " && touch -d @5 other && make -s && has_made "" &&
        rm one two && ! make -q && make -s -j2 && has_made "one two "
}

keeps_tables() {
    local mode
    for mode in delete truncate wal; do
        {
            echo "pragma journal_mode=$mode; create table t(a integer primary key, b);"
            for row in $(seq 20); do
                echo "insert into t values($row, hex(randomblob($row * 100)));"
            done
            echo "begin; delete from t where a > 10; rollback; update t set b = b || 'x' where a % 2;"
        } | sqlite3 "$dir/$mode.db" >"$work/out.sql" || return
        [ "$(sqlite3 "$dir/$mode.db" 'select count(*), sum(a), sum(length(b)) from t; pragma integrity_check')" = "20|210|42010
ok" ] || return
    done
}

writes_at_random() {
    fio --name=verified --filename="$dir/fio" --size=4m --bs=16k --rw=randrw --verify=crc32c --do_verify=1 --verify_state_save=0 --randseed=1 --minimal && rm "$dir/fio"
}
maps() {
    fio --name=mapped --filename="$dir/fio" --size=1m --bs=4k --rw=randwrite --ioengine=mmap --verify=crc32c --do_verify=1 --verify_state_save=0 --randseed=1 --minimal && rm "$dir/fio"
}

writes_many() {
    head -c 2097152 /dev/urandom >"$work/many" && dd if="$work/many" of="$dir/many" bs=64k conv=fsync status=none && cmp "$work/many" "$dir/many" &&
        cp --reflink=auto "$dir/many" "$dir/again" && cmp "$work/many" "$dir/again"
}
has_holes() {
    truncate -s 30M "$dir/holes" && echo x >>"$dir/holes" && [ "$(stat -c %s "$dir/holes")" = 31457282 ] &&
        cp --sparse=always "$dir/holes" "$work/holes" && cmp "$work/holes" "$dir/holes"
}
replaces() {
    local round
    for round in $(seq 30); do
        echo "$round" >"$dir/new" && sync "$dir/new" && mv "$dir/new" "$dir/current" && [ "$(cat "$dir/current")" = "$round" ] || return
    done
    ! [ -e "$dir/new" ]
}
runs_from_there() { cp /bin/true "$dir/program" && "$dir/program"; }
locks() { flock "$dir/lock" true; }

looks_back() {
    mkdir "$dir/.snapshot/monday" && diff -r "$dir/synced" "$dir/.snapshot/monday/synced" && same "$dir/synced" "$dir/.snapshot/monday/synced" &&
        rm -r "$dir/synced/a" && same "$from" "$dir/.snapshot/monday/synced" && [ "$(ls "$dir/.snapshot")" = monday ] &&
        [ -z "$(find "$dir" -maxdepth 1 -name '*snap*')" ] && cp -a "$dir/.snapshot/monday/synced/a" "$dir/synced/" && same "$from" "$dir/synced" &&
        ! touch "$dir/.snapshot/monday/x"
}
copies_a_snapshot() { tar --acls -C "$dir/.snapshot/monday" -cf - synced | tar --acls -C "$back" -xpf - && same "$from" "$back/synced"; }
forgets() { rmdir "$dir/.snapshot/monday" && [ -z "$(ls "$dir/.snapshot")" ]; }

goes_on_without_links() {
    mkdir "$work/linked" "$dir/linked" && echo f >"$work/linked/file" && ln -s file "$work/linked/link" &&
        tar -C "$work/linked" -cf "$work/linked.tar" . && ! tar -C "$dir/linked" -xpf "$work/linked.tar" && [ "$(ls "$dir/linked")" = file ]
}
removes_all() { rm -rf "${dir:?}"/* && [ -z "$(ls -A "$dir")" ]; }

make_tree
cd "$work" || exit 1
"$snapfs" mkfs "$image" 32768 >/dev/null && "$snapfs" mount "$image" "$dir" "${checks[@]}" 2>"$work/told" || exit 1
holds "cp -a in" copies_in
holds "cp -a out" copies_out
holds "tar in" packs_in
holds "tar out" packs_out
if has getfacl setfacl; then
    holds "getfacl, setfacl --restore" restores_lists
    holds "setfacl: entries, mask, default" sets_a_list
fi
if has rsync; then
    holds "rsync" syncs
    holds "rsync again: nothing to do" syncs_again
    holds "rsync of a change" syncs_a_change
    holds "rsync of a change that only times show" syncs_a_change_of_time
    holds "rsync --delete" syncs_a_removal
    holds "find" finds
    holds "snapshots: diff, restore, refused change" looks_back
    holds "tar of a snapshot" copies_a_snapshot
    holds "a snapshot deleted" forgets
fi
holds "500 names, listed and removed" removes_while_listing
if has git; then
    holds "git: commits, checkouts, gc, fsck" keeps_a_history
    holds "git clone" clones
fi
if has make; then
    holds "make" builds
fi
if has sqlite3; then
    holds "SQLite: three journals" keeps_tables
fi
if has fio; then
    holds "fio, verified" writes_at_random
    holds "fio, by mmap" maps
fi
holds "2 MiB, synced, copied" writes_many
holds "a file with a hole" has_holes
holds "files replaced" replaces
holds "a program run from there" runs_from_there
holds "flock" locks
holds "tar goes on where it has a symbolic link" goes_on_without_links
case_of "unmounted, to be mounted again" 0 "" "$snapfs" unmount "$dir"
holds "and sound" sh -c "'$snapfs' check '$image' | grep '^clean '"
case_of "mounted again" 0 "" "$snapfs" mount "$image" "$dir" "${checks[@]}"
holds "all is there" alike "$from" "$dir/synced"
holds "all of it removed" removes_all
case_of "unmounted" 0 "" "$snapfs" unmount "$dir"
holds "sound" sh -c "'$snapfs' check '$image' | grep '^clean '"
holds "the program told nothing" cmp "$work/told" /dev/null
finish
