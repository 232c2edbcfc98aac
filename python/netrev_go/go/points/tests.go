package main

const ofTests = "which test a step is of"

const testing = "testing/testing.go"

// The points that say which test runs. If one of these rules doesn't fit, all are left out.
var tests = []rule{
	{testing, "MainStart", all(
		one(behind, "Init()", "netrevPackage(deps.ImportPath())"))},
	{testing, "tRunner", all(
		one(before, "fn(t)", "netrevTested(\"runs\", t.name)"),
		one(before, "t.report()", "netrevTested(\"ends\", t.name)"))},
	{testing, "Fail", all(
		one(before, "c.mu.Lock()", "netrevFailed(c.name)"))},
	{testing, "SkipNow", all(
		one(before, "runtime.Goexit()", "netrevTested(\"skips\", c.name)"))},
}
