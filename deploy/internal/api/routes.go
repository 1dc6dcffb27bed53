// Package api answers what an application has: bundles, changes, the history. A table of addresses gives the routing and openapi.json.
package api

import (
	"luvdregan.example/resb/deploy/internal/auth"
	"luvdregan.example/resb/deploy/internal/front"
	"luvdregan.example/resb/deploy/internal/lookup"
	"luvdregan.example/resb/deploy/internal/openapi"
	"luvdregan.example/resb/deploy/internal/release"
	"luvdregan.example/resb/deploy/internal/wire"
)

// A call is a request for what an application has.
type call = front.Call

// New completes a handler, whose other fields are set.
func New(h *front.Handler) *front.Handler {
	h.OpenAPI = openapi.Describe(h.Options.Version, addresses)
	h.Begin(addresses)
	return h
}

// The types of bodies and replies.
var (
	asJSON    = []string{wire.JSON}
	asLines   = []string{wire.Lines}
	asPatch   = []string{wire.Patch}
	inAnyForm = []string{wire.Text, wire.File, wire.JSON}
)

// addresses have all that is below /v1/{app}. The routing, `Allow` and openapi.json follow from it. An address that is listed earlier wins.
var addresses = []front.Address{
	{Pattern: "", Operations: []front.Operation{
		{Method: "GET", ID: "list", Summary: "Returns the names of the bundles, in the order of installation.", Right: auth.Read, Kind: front.KindList,
			Do: lookup.List, Gives: asJSON, Statuses: []int{200, 304, 412}},
		{Method: "DELETE", ID: "erase", Summary: "Removes all bundles, the history, and what was submitted.", Right: auth.Erase, Kind: front.KindChange,
			Action: "erase", Do: erase, Gives: asJSON, Statuses: []int{200, 507}, Query: []string{"erase"}},
	}},
	{Pattern: "/_erasure/undo", Operations: []front.Operation{
		{Method: "POST", ID: "undoErase", Summary: "Brings back what the last erasure removed, except bundles that are there again.", Right: auth.Erase,
			Kind: front.KindChange, Action: "undo", Do: undoErase, Gives: asJSON, Statuses: []int{200, 404, 409, 507}},
	}},
	{Pattern: "/_tokens", Operations: []front.Operation{
		{Method: "GET", ID: "tokens", Summary: "Returns the tokens that owners made.", Right: auth.Own, Kind: front.KindOther,
			Do: listTokens, Gives: asJSON, Statuses: []int{200}},
		{Method: "POST", ID: "makeToken", Summary: "Makes a token, and returns it once.", Right: auth.Own, Kind: front.KindChange, Action: "token",
			Do: makeToken, Gives: asJSON, Statuses: []int{201, 409, 507}, Query: []string{"rights", "name", "locale scope", "expires"}},
	}},
	{Pattern: "/_tokens/{token}", Operations: []front.Operation{
		{Method: "DELETE", ID: "revoke", Summary: "Revokes a token that an owner made.", Right: auth.Own, Kind: front.KindChange, Action: "revoke",
			Do: revokeToken, Gives: asJSON, Statuses: []int{200, 404, 507}},
	}},
	{Pattern: "/look", Operations: []front.Operation{
		{Method: "POST", ID: "lookMany", Summary: "Makes many lookups, a line of JSON each, and writes a line of the reply or error each.",
			Right: auth.Read, Kind: front.KindLooks, Do: lookup.Many, Takes: asLines, Gives: asLines, Statuses: []int{200, 408, 413}},
	}},
	{Pattern: "/_releases", Operations: []front.Operation{
		{Method: "POST", ID: "release", Summary: "Makes several changes, all or none.", Right: auth.Release, AnyLocale: true,
			Kind: front.KindChange, Action: "release", Do: makeRelease, Takes: release.Types, Gives: asJSON, Statuses: []int{200, 404, 408, 409, 412, 413, 415, 507}},
	}},
	{Pattern: "/_default", Operations: []front.Operation{
		{Method: "PUT", ID: "setDefault", Summary: "Sets the locale for callers none of whose languages has a bundle.", Right: auth.Edit,
			Kind: front.KindChange, Action: "default", Do: setDefault, Gives: asJSON, Statuses: []int{200, 507}, Query: []string{"locale default"}},
	}},
	{Pattern: "/_check/{locale}", Operations: []front.Operation{
		{Method: "POST", ID: "check", Summary: "Returns the error and the warnings of a bundle, and stores nothing.", Right: auth.Read,
			Kind: front.KindCheck, Do: check, Takes: inAnyForm, Gives: asJSON, Statuses: []int{200, 408, 413, 415}},
	}},
	{Pattern: "/_history", Operations: []front.Operation{
		{Method: "GET", ID: "history", Summary: "Returns the last changes, the newest first.", Right: auth.Edit, AnyLocale: true, Kind: front.KindHistory,
			Do: history, Gives: asJSON, Statuses: []int{200}, Query: []string{"last", "before", "locale of", "by"}},
	}},
	{Pattern: "/_history/{id}", Operations: []front.Operation{
		{Method: "GET", ID: "version", Forms: "getVersion", Summary: "Returns the bundle as it was after a change.", Right: auth.Edit, AnyLocale: true,
			Kind: front.KindFetch, Do: answerVersion, Gives: inAnyForm, Statuses: []int{200, 304, 404, 412, 413}},
	}},
	{Pattern: "/_history/{id}/diff", Operations: []front.Operation{
		{Method: "GET", ID: "diff", Summary: "Returns the items that differ between two versions.", Right: auth.Edit, AnyLocale: true, Kind: front.KindFetch,
			Do: differences, Gives: asJSON, Statuses: []int{200, 404, 413}, Query: []string{"with"}},
	}},
	{Pattern: "/_history/{id}/restore", Operations: []front.Operation{
		{Method: "POST", ID: "restore", Summary: "Makes the bundle what it was after a change.", Right: auth.Edit, AnyLocale: true,
			Kind: front.KindChange, Action: "restore", Do: restore, Gives: asJSON, Statuses: []int{200, 201, 404, 409, 412, 507}},
	}},
	{Pattern: "/_history/{id}/undo", Operations: []front.Operation{
		{Method: "POST", ID: "undo", Summary: "Takes back a whole change, such as a release: each of its bundles becomes what it was before.",
			Right: auth.Edit | auth.Release, AnyLocale: true, Kind: front.KindChange, Action: "undo", Do: undo, Gives: asJSON, Statuses: []int{200, 404, 409, 412, 507}},
	}},
	{Pattern: "/{locale}", Operations: []front.Operation{
		{Method: "GET", ID: "lookRoot", Forms: "get", Summary: "Returns the bundle's table, or with ?path an item; with .txt, .res or .json the bundle; with ?tree all that it inherits.",
			Right: auth.Read, Kind: front.KindLook, Do: readBundle, Gives: inAnyForm, Statuses: []int{200, 304, 404, 412, 413}, Query: []string{"tree", "path item"}},
		{Method: "PUT", ID: "put", Summary: "Installs or replaces the bundle.", Right: auth.Edit, Kind: front.KindChange, Action: "put",
			Do: put, Takes: inAnyForm, Gives: asJSON, Statuses: []int{200, 201, 408, 409, 412, 413, 415, 507}, Query: []string{"strict"}},
		{Method: "POST", ID: "install", Summary: "Installs the bundle if there is none.", Right: auth.Edit, Kind: front.KindChange, Action: "install",
			Do: put, Takes: inAnyForm, Gives: asJSON, Statuses: []int{201, 408, 409, 412, 413, 415, 507}, Query: []string{"strict"}},
		{Method: "PATCH", ID: "patch", Summary: "Changes items of the bundle by a JSON merge patch (RFC 7396).", Right: auth.Edit, Kind: front.KindChange,
			Action: "patch", Do: patch, Takes: asPatch, Gives: asJSON, Statuses: []int{200, 404, 408, 412, 413, 415, 507}},
		{Method: "DELETE", ID: "remove", Summary: "Removes the bundle.", Right: auth.Edit, Kind: front.KindChange, Action: "remove",
			Do: remove, Gives: asJSON, Statuses: []int{200, 404, 412, 507}},
	}},
	{Pattern: "/{locale}/{path}", Operations: []front.Operation{
		{Method: "GET", ID: "look", Summary: "Returns an item; with ?tree all that it inherits.", Right: auth.Read, Kind: front.KindLook,
			Do: lookup.Item, Gives: asJSON, Statuses: []int{200, 304, 404, 412, 413}, Query: []string{"tree"}},
	}},
}
