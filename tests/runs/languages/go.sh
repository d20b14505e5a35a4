# Go over cgo, offline: the package's tests, also with the race detector and with every check of pointers, its examples,
# vet and gofmt. Sourced by tests/runs/languages.sh.

# build_go : the answers by the copy of the module
build_go() {
    (cd "$room/go" && go build -o "$room/answers_go" ./answers)
}

if here Go go; then
    export GOPROXY=off GOFLAGS=-mod=mod GOTOOLCHAIN=local
    copied go
    mkdir "$room/go/answers"
    cp answers.go "$room/go/answers/main.go"
    quiet 'go build' build_go
    answering Go "$room/answers_go"
    (
        cd "$room/go"
        quiet 'go vet' go vet ./...
        quiet 'the tests of the module' go test ./...
        quiet 'the tests under the race detector' env GODEBUG=cgocheck=2 go test -race .
        cp "$top/tests/runs/languages/told_test.go" .
        quiet 'what the module says without memory' go test -exec "env LD_PRELOAD=$told" -run TestWithoutMemory -count 1 .
        [ -z "$(gofmt -l .)" ] || fail "gofmt: $(gofmt -l .)"
    )
    for edit in 's/int(found.place), int(found.byte_place);/int(found.byte_place), int(found.place);/' \
        's/if !from.present {/if from.length == 0 {/' \
        's/return bytesOf(c.base.text)/return bytesOf(c.base.text[:1])/'; do
        spoiled Go build_go go calls.go "$edit" "$room/answers_go"
    done
    guide go go guide_go main.go
    python3 guide.py "$top/docs/guides/go.md" text "$room/guide_go/go.mod"
    as_told go guide_go
fi
