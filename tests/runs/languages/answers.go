// Answers each case of a file of cases (see tests/runs/library/cases.py) by the package, in each profile, a line each.
// With the word "mended" after the file a line has what is mended.
package main

import (
	"bufio"
	"encoding/binary"
	"errors"
	"fmt"
	"os"
	"strings"

	"yuccaeave.example/urlcheck"
)

const absent = 0xFFFFFFFF

// next gives the first text of data, after its length in four bytes, lowest first, and the rest. One that is absent is
// nil.
func next(data []byte) (*string, []byte) {
	length := binary.LittleEndian.Uint32(data)
	data = data[4:]
	if length == absent {
		return nil, data
	}
	text := string(data[:length])
	return &text, data[length:]
}

func at(violation urlcheck.Violation) string {
	return fmt.Sprintf("%d %d %v", violation.Place, violation.BytePlace, violation.Rule)
}

func refusalOf(err error) *urlcheck.Refusal {
	var refused *urlcheck.Refusal
	if !errors.As(err, &refused) {
		panic(err)
	}
	return refused
}

func shown(part string, isThere bool) string {
	if isThere {
		return "+" + part
	}
	return "-"
}

// joined gives the URL with its parts joined again, which has to be its text.
func joined(url urlcheck.URL) string {
	part := func(mark, part string, isThere bool) string {
		if isThere {
			return mark + part
		}
		return ""
	}
	scheme, _ := url.Scheme()
	host, hasHost := url.Host()
	port, hasPort := url.Port()
	query, hasQuery := url.Query()
	fragment, hasFragment := url.Fragment()
	dot := part("/", ".", !hasHost && strings.HasPrefix(url.Path(), "//"))
	return scheme + ":" + part("//", host, hasHost) + part(":", port, hasPort) + dot + url.Path() +
		part("?", query, hasQuery) + part("#", fragment, hasFragment)
}

func require(holds bool, what string) {
	if !holds {
		panic(what)
	}
}

// line gives the answer of each call for one text, which have to agree.
func line(checker urlcheck.Checker, text string) string {
	violations, err := checker.Violations(text)
	require(err == nil, "violations")
	var fields []string
	url, err := checker.Check(text)
	many := checker.CheckMany([]string{text})[0]
	record, resolving := checker.Resolve(text)
	require(checker.IsValid(text) == (err == nil), "isValid")
	if err != nil {
		refused := *refusalOf(err)
		require(*refusalOf(many) == refused && *refusalOf(resolving) == refused, "another refusal")
		require(refused.Message(text) != "", "no message")
		fields = append(fields, "1 "+at(refused.Violation))
	} else {
		urls, errs := checker.ResolveMany([]string{text})
		require(many == nil && resolving == nil && errs[0] == nil && urls[0] == record.String(), "another URL")
		require(joined(record) == record.String(), "the parts of the URL aren't it")
		fields = append(fields, "0", shown(url.Scheme()), shown(url.Host()), shown(url.Port()), shown(url.Path(), true),
			shown(url.Query()), shown(url.Fragment()), record.String())
	}
	for _, violation := range violations {
		fields = append(fields, at(violation))
	}
	return strings.Join(fields, "\t")
}

func mended(checker urlcheck.Checker, text string) string {
	mended, err := checker.Mend(text)
	if err != nil {
		refused := refusalOf(err)
		return fmt.Sprintf("none\trefused %d %v", refused.Place, refused.Rule)
	}
	if mended.Kind == urlcheck.Unchanged {
		return mended.Kind.String()
	}
	return fmt.Sprintf("mended %v\t%s", mended.Kind, mended.Text)
}

func answer(text string, base *string, profile urlcheck.Profile, isMended bool) string {
	checker, err := urlcheck.By(profile), error(nil)
	if base != nil {
		checker, err = urlcheck.Against(*base, profile)
	}
	switch {
	case err != nil && isMended:
		refused := refusalOf(err)
		return fmt.Sprintf("base refused %d %v", refused.Place, refused.Rule)
	case err != nil:
		return "3 " + at(refusalOf(err).Violation)
	case isMended:
		return mended(checker, text)
	default:
		return line(checker, text)
	}
}

func main() {
	data, err := os.ReadFile(os.Args[1])
	require(err == nil, "the cases can't be read")
	out := bufio.NewWriter(os.Stdout)
	for len(data) > 0 {
		var text, base *string
		text, data = next(data)
		base, data = next(data)
		for _, profile := range []urlcheck.Profile{urlcheck.Standard, urlcheck.Wide, urlcheck.Parser} {
			fmt.Fprintln(out, answer(*text, base, profile, len(os.Args) > 2))
		}
	}
	require(out.Flush() == nil, "the answers can't be written")
}
