// The package urlcheck and net/url over the lines of a file: a row for each call.
package main

import (
	"fmt"
	"log"
	"net/url"
	"os"
	"strconv"
	"strings"
	"time"

	"yuccaeave.example/urlcheck"
)

// least gives the nanoseconds a text of the fastest round, and how many texts were accepted.
func least(rounds int, texts []string, isAccepted func(string) bool) (float64, int) {
	fastest, accepted := 0.0, 0
	for round := 0; round < rounds; round++ {
		count, started := 0, time.Now()
		for _, text := range texts {
			if isAccepted(text) {
				count++
			}
		}
		took := float64(time.Since(started).Nanoseconds()) / float64(len(texts))
		if round == 0 || took < fastest {
			fastest, accepted = took, count
		}
	}
	return fastest, accepted
}

func main() {
	data, err := os.ReadFile(os.Args[1])
	if err != nil {
		log.Fatal(err)
	}
	rounds, err := strconv.Atoi(os.Args[2])
	if err != nil {
		log.Fatal(err)
	}
	texts := strings.Split(strings.TrimSuffix(string(data), "\n"), "\n")
	peer, _ := least(rounds, texts, func(text string) bool { _, err := url.Parse(text); return err == nil })
	row := func(name string, own float64, accepted int) {
		fmt.Printf("Go\t%s\t%.1f\tnet/url.Parse\t%.1f\t%d\n", name, own, peer, accepted)
	}
	for _, call := range []struct {
		name string
		call func(string) bool
	}{
		{"IsValid", urlcheck.IsValid},
		{"Check", func(text string) bool { _, err := urlcheck.Check(text); return err == nil }},
		{"Resolve", func(text string) bool { _, err := urlcheck.Resolve(text); return err == nil }},
	} {
		own, accepted := least(rounds, texts, call.call)
		row(call.name, own, accepted)
	}
	accepted := 0
	all, _ := least(rounds, texts[:1], func(string) bool {
		accepted = 0
		for _, err := range urlcheck.By(urlcheck.Standard).CheckMany(texts) {
			if err == nil {
				accepted++
			}
		}
		return true
	})
	row("CheckMany", all/float64(len(texts)), accepted)
}
