// Package openapi describes the addresses of a gateway (OpenAPI 3.0).
package openapi

import (
	_ "embed" // for the fixed parts
	"encoding/json"
	"fmt"
	"net/http"
	"strconv"
	"strings"

	"luvdregan.example/resb/deploy/internal/auth"
	"luvdregan.example/resb/deploy/internal/front"
	"luvdregan.example/resb/deploy/internal/wire"
)

// The parts that don't follow from the table of addresses: the head, the pages, the parameters and the schemas.
//
//go:embed base.json
var base []byte

type object = map[string]any

// Describe returns the description, which follows from the table of addresses.
func Describe(version string, addresses []front.Address) []byte {
	var whole struct {
		OpenAPI    string            `json:"openapi"`
		Info       map[string]string `json:"info"`
		Security   any               `json:"security"`
		Paths      object            `json:"paths"`
		Components object            `json:"components"`
	}
	if err := json.Unmarshal(base, &whole); err != nil {
		panic(err) // it is a part of the program
	}
	whole.Info["version"] = version
	whole.Components["responses"] = responses()
	for i := range addresses {
		describe(whole.Paths, &addresses[i])
	}
	text, err := json.MarshalIndent(whole, "", "  ")
	if err != nil {
		panic(err) // the values are texts, numbers, lists and objects
	}
	return append(text, '\n')
}

// describe adds an address, and one for each form of a bundle that may be read there. A version of the history is only there in a form.
func describe(paths object, a *front.Address) {
	path := "/v1/{app}" + a.Pattern
	if !strings.HasSuffix(path, "/_history/{id}") {
		paths[path] = pathItem(a, wire.Form{})
	}
	if a.Operations[0].Forms != "" {
		for _, form := range wire.Forms {
			paths[path+"."+form.Suffix] = pathItem(a, form)
		}
	}
}

// pathItem describes an address, or the reading of a bundle there in a form.
func pathItem(a *front.Address, form wire.Form) object {
	given := []object{reference("parameters", "app")}
	for _, part := range a.Parts() {
		if part[0] == '{' {
			given = append(given, reference("parameters", strings.Trim(part, "{}")))
		}
	}
	item := object{"parameters": append(given, reference("parameters", "after"))}
	for i := range a.Operations {
		o := &a.Operations[i]
		if form.Suffix == "" {
			item[strings.ToLower(o.Method)] = operationItem(o, o.ID, o.Gives)
		} else if o.Forms != "" {
			id := o.Forms + strings.ToUpper(form.Suffix[:1]) + form.Suffix[1:]
			item[strings.ToLower(o.Method)] = operationItem(o, id, []string{form.Type})
		}
	}
	return item
}

func operationItem(o *front.Operation, id string, gives []string) object {
	given := []object{}
	for _, words := range o.Query {
		given = append(given, reference("parameters", words[strings.LastIndexByte(words, ' ')+1:]))
	}
	if o.Method != http.MethodGet && o.Right&(auth.Read|auth.Own) == 0 {
		given = append(given, reference("parameters", "ifMatch"))
	}
	if o.Kind == front.KindLook {
		given = append(given, reference("parameters", "acceptLanguage"))
	}
	all := object{}
	for _, status := range append([]int{400, 401, 403, 429, 500, 503, 504}, o.Statuses...) {
		all[strconv.Itoa(status)] = reference("responses", nameOf(status))
		if status == http.StatusNotModified {
			given = append(given, reference("parameters", "ifNoneMatch"))
		}
		if status < 300 {
			all[strconv.Itoa(status)] = object{"description": "Done.", "content": contents(gives, replies[o.ID]),
				"headers": object{"ETag": reference("headers", "tag"), "Resb-Revision": reference("headers", "revision")}}
		}
	}
	item := object{"operationId": id, "summary": o.Summary, "parameters": given, "responses": all}
	if o.Takes != nil {
		item["requestBody"] = object{"required": true, "content": contents(o.Takes, "")}
	}
	return item
}

// replies names the schemas of operations' replies. Other replies are any JSON.
var replies = map[string]string{"list": "Names", "look": "Item", "put": "Done", "install": "Done", "remove": "Done", "patch": "Done", "erase": "Done",
	"undoErase": "Done", "revoke": "Done", "tokens": "Tokens", "makeToken": "Token", "restore": "Done", "release": "Released", "history": "History",
	"diff": "Differences", "check": "Checked"}

func contents(types []string, schema string) object {
	all := object{}
	for _, one := range types {
		of := object{}
		switch {
		case one != wire.JSON && one != wire.Patch:
			of["type"] = "string"
		case schema != "":
			of = reference("schemas", schema)
		}
		all[one] = object{"schema": of}
	}
	return all
}

// responses describes each status with its codes.
func responses() object {
	all := object{"Page": object{"description": "Done."}, nameOf(http.StatusNotModified): object{"description": "The caller has the reply."}}
	for status, codes := range wire.Codes {
		all[nameOf(status)] = object{
			"description": fmt.Sprintf("%s. Codes: `%s`", http.StatusText(status), strings.Join(codes, "`, `")),
			"content":     object{wire.JSON: object{"schema": reference("schemas", "Error")}},
		}
	}
	return all
}

// nameOf returns the name of the description of a status. Some readers take a name of digits alone for an index.
func nameOf(status int) string { return "Status" + strconv.Itoa(status) }

func reference(kind, name string) object { return object{"$ref": "#/components/" + kind + "/" + name} }
