package main

import (
	"fmt"
	"path/filepath"
	"strings"
)

// A fitting says which variant of a rule fits, or why no variant fits.
type fitting struct {
	rule    rule
	without string // what isn't recorded if the rule doesn't fit; "" if nothing can be recorded then
	variant *variant
	changes []change
	why     string
}

// fit tries the variants of a rule in order.
func (f *fitting) fit(s *source) {
	function := s.function(f.rule.function)
	if function == nil {
		f.why = "no such function"
		return
	}
	for i, v := range f.rule.variants {
		if v.has != "" && s.has(strings.TrimPrefix(v.has, "!")) == strings.HasPrefix(v.has, "!") {
			continue
		}
		changes, err := s.changes(function, v.edits)
		if err == nil {
			f.variant, f.changes = &f.rule.variants[i], changes
			return
		}
		if f.why == "" {
			f.why = err.Error()
		}
	}
}

// wanted returns all rules, each with what isn't recorded if it doesn't fit.
func wanted() []fitting {
	var all []fitting
	for _, r := range append(steps, faults...) {
		all = append(all, fitting{rule: r})
	}
	for _, r := range calls {
		all = append(all, fitting{rule: r, without: ofDeadlines})
	}
	for _, w := range ways {
		all = append(all, fitting{rule: w.rule, without: w.moves})
	}
	for _, r := range orders {
		all = append(all, fitting{rule: r, without: ofOrders})
	}
	for _, r := range objects {
		all = append(all, fitting{rule: r, without: ofObjects})
	}
	for _, r := range ends {
		all = append(all, fitting{rule: r, without: ofEnds})
	}
	for _, r := range sleeps {
		all = append(all, fitting{rule: r, without: ofSleeps})
	}
	for _, r := range timers {
		all = append(all, fitting{rule: r, without: ofTimers})
	}
	for _, r := range stops {
		all = append(all, fitting{rule: r, without: ofStops})
	}
	for _, r := range addressed {
		all = append(all, fitting{rule: r, without: ofAddresses})
	}
	for _, r := range groups {
		all = append(all, fitting{rule: r, without: ofGroups})
	}
	for _, r := range makings {
		all = append(all, fitting{rule: r, without: ofMaking})
	}
	for _, r := range dials {
		all = append(all, fitting{rule: r, without: ofDials})
	}
	for _, file := range mutexFiles {
		for _, r := range mutexRules(file) {
			all = append(all, fitting{rule: r, without: ofHolders})
		}
	}
	for _, r := range readers {
		all = append(all, fitting{rule: r, without: ofHolders})
	}
	for _, r := range notes {
		all = append(all, fitting{rule: r, without: ofNotes})
	}
	for _, r := range tests {
		all = append(all, fitting{rule: r, without: ofTests})
	}
	for _, r := range signals {
		all = append(all, fitting{rule: r, without: ofSignals})
	}
	return all
}

// fitAll fits all rules to the sources below a folder.
func fitAll(folder string) (map[string]*source, []fitting) {
	sources := map[string]*source{}
	fittings := wanted()
	for i, f := range fittings {
		file := f.rule.file
		if sources[file] == nil {
			if s, err := readSource(filepath.Join(folder, filepath.FromSlash(file))); err == nil {
				sources[file] = s
			}
		}
		if sources[file] == nil {
			fittings[i].why = "no such file"
		} else {
			fittings[i].fit(sources[file])
		}
	}
	return sources, withoutElse(withoutOther(fittings, mutexFiles))
}

// withoutOther removes the rules of the other files if all rules of one file fit: a release has only one of the files.
func withoutOther(fittings []fitting, files []string) []fitting {
	whole := ""
	for _, file := range files {
		fits := true
		for _, f := range fittings {
			fits = fits && (f.rule.file != file || f.variant != nil)
		}
		if fits && whole == "" {
			whole = file
		}
	}
	var kept []fitting
	for _, f := range fittings {
		if whole == "" || f.rule.file == whole || !contains(files, f.rule.file) {
			kept = append(kept, f)
		}
	}
	return kept
}

func contains(files []string, file string) bool {
	for _, one := range files {
		if one == file {
			return true
		}
	}
	return false
}

// together names what is recorded completely or not at all.
var together = map[string]bool{ofOrders: true, ofObjects: true, ofDials: true, ofHolders: true, ofTests: true, ofNotes: true}

// withOrders names what is recorded only together with the program's orders, because a log with such points counts as having the orders
// too.
var withOrders = map[string]bool{
	ofObjects: true, ofEnds: true, ofSleeps: true, ofTimers: true, ofStops: true, ofGroups: true, ofMaking: true, ofDials: true, ofHolders: true,
}

// withoutElse removes a rule that doesn't fit if another rule with the same `without` fits. If a rule of a group in `together`
// doesn't fit, it removes the rules of that group that fit. If a rule of the orders doesn't fit, it removes all rules of the
// groups in `withOrders`.
func withoutElse(fittings []fitting) []fitting {
	fits, unfit := map[string]bool{}, map[string]bool{}
	for _, f := range fittings {
		fits[f.without] = fits[f.without] || f.variant != nil
		unfit[f.without] = unfit[f.without] || f.variant == nil
	}
	for _, what := range []string{"", ofOrders, ofObjects, ofEnds, ofDials, ofHolders, ofTests, ofNotes} {
		fits[what] = false
	}
	var kept []fitting
	for _, f := range fittings {
		if withOrders[f.without] && unfit[ofOrders] {
			continue
		}
		if f.variant == nil && !fits[f.without] || f.variant != nil && !(together[f.without] && unfit[f.without]) {
			kept = append(kept, f)
		}
	}
	return kept
}

// report prints a line for each rule, and returns how many required rules don't fit.
func report(fittings []fitting) int {
	unfit := 0
	for _, f := range fittings {
		name := f.rule.file + " " + f.rule.function
		switch {
		case f.variant == nil && f.without != "":
			fmt.Printf("without %s: %s: %s\n", f.without, name, f.why)
		case f.variant == nil:
			unfit++
			fmt.Printf("unfit %s: %s\n", name, f.why)
		default:
			fmt.Printf("fits %s (as in %s)\n", name, f.variant.releases)
		}
	}
	return unfit
}
