# Sourced by what needs a server of PostgreSQL with the extension: a private one, in the folder of the run. The server is copied
# there, since it looks for extensions where its program is; nothing is installed, and it runs as a normal user.
# shellcheck shell=bash disable=SC2154 # (the file that reads it sets its variables)

# postgres_tree : where the installed server's folders are, by its own word
postgres_tree() {
    bin=$($pg_config --bindir) share=$($pg_config --sharedir) lib=$($pg_config --pkglibdir)
}

# as_user COMMAND.. : runs a command as a normal user, as a server has to be
as_user() {
    if [ "$(id -u)" = 0 ]; then
        setpriv --reuid=nobody --regid="$(id -g nobody)" --clear-groups env HOME="$home" "$@"
    else
        "$@"
    fi
}

# copy_server : copies the server
copy_server() {
    tree=$room/server
    # (its program finds its other folders by the way from its own)
    mkdir -p "$tree$bin" "$tree$lib" "$tree$share"
    cp -a "$bin"/{postgres,initdb,pg_ctl,psql,pg_dump,pg_config} "$tree$bin/"
    find "$lib" -maxdepth 1 -name '*.so' -exec cp -a {} "$tree$lib/" \;
    cp -aL "$share/." "$tree$share/"
}

# make_extension FOLDER WORD.. : calls make for the extension in a folder of sources
make_extension() {
    quietly make -C "$1/bindings/engines/postgresql" PG_CONFIG="$pg_config" LIBRARY="$library" RPATH="$tree" \
        STRICT='-Wall -Wextra -Werror -Wno-unused-parameter -Wno-sign-compare' with_llvm=no "${@:2}"
}

# add_extension : builds the extension for the server's copy, and installs it there
add_extension() {
    mkdir "$room/extension"
    (cd "$top" && cp -r --parents bindings/engines VERSION "$room/extension/")
    # (nothing that was built before)
    find "$room/extension" \( -name '*.o' -o -name '*.so' -o -name '*.bc' \) -delete
    make_extension "$room/extension" install DESTDIR="$tree"
    cp -L "$library/lib/liburlcheck.so.0.5" "$tree/"
    cp "$top/bindings/engines/postgresql/test/next.sql" \
        "$tree$share/extension/urlcheck--$(cat "$top/VERSION")--next.sql"
    # (the SQL of versions before this one, as they were released)
    cp -n "$top"/bindings/engines/postgresql/test/urlcheck--*.sql "$tree$share/extension/"
    chmod -R a+rX "$room/extension"
}

# start_server : copies the server, with the extension that add_extension puts there, and starts it
start_server() {
    copy_server
    add_extension
    data=$room/data home=$room/home
    mkdir "$data" "$home"
    chmod 711 "$room" "$(dirname "$room")"
    chmod -R a+rX "$tree"
    [ "$(id -u)" != 0 ] || chown nobody "$data" "$home"
    quietly as_user "$tree$bin/initdb" -D "$data/base" -U owner -A trust -E UTF8 --no-locale --no-sync
    # (what is stored needs not outlive the machine)
    LD_PRELOAD=${preloaded:-} quietly as_user "$tree$bin/pg_ctl" -D "$data/base" -l "$data/log" -w -t 60 -o \
        "-c listen_addresses= -c unix_socket_directories=$data -c fsync=off -c max_wal_size=4GB -c autovacuum=off -c jit=off" start
    trap 'as_user "$tree$bin/pg_ctl" -D "$data/base" -m immediate stop >/dev/null 2>&1 || true; rm -rf "$room"' EXIT
    export PGHOST=$data PGUSER=owner PGDATABASE=postgres PGCLIENTENCODING=UTF8
}

# sql [DATABASE] : what the server answers to the statements on standard input, in lines
sql() {
    "$tree$bin/psql" -X -q -A -t -v ON_ERROR_STOP=1 "$@"
}

# has_server : whether PostgreSQL and what its extensions are built with are installed
has_server() {
    pg_config=$(command -v pg_config || true)
    # (a client brings PGXS too, and the headers of a server are a package of their own)
    [ -n "$pg_config" ] && [ -x "$($pg_config --bindir)/initdb" ] && [ -f "$($pg_config --pgxs)" ] &&
        [ -f "$($pg_config --includedir-server)/postgres.h" ]
}
