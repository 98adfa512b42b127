// For tools/test_judge.py: the same as main.rt.txt beside it, by kube-openapi's validator, which is given what the API server gives it.
package main

import (
	"bufio"
	"encoding/json"
	"fmt"
	"os"
	"strings"

	"k8s.io/kube-openapi/pkg/validation/spec"
	"k8s.io/kube-openapi/pkg/validation/strfmt"
	"k8s.io/kube-openapi/pkg/validation/validate"
)

func check(err error) {
	if err != nil {
		panic(err)
	}
}

func treeOf(text string) interface{} {
	decoder := json.NewDecoder(strings.NewReader(text))
	decoder.UseNumber()
	var tree interface{}
	check(decoder.Decode(&tree))
	return withNumbers(tree)
}

func withNumbers(tree interface{}) interface{} {
	switch tree := tree.(type) {
	case json.Number:
		return numberOf(tree)
	case []interface{}:
		for index, item := range tree {
			tree[index] = withNumbers(item)
		}
	case map[string]interface{}:
		for name, member := range tree {
			tree[name] = withNumbers(member)
		}
	}
	return tree
}

// numberOf reads an integer of 64 bits where there is neither a point nor an exponent, and else a float.
func numberOf(written json.Number) interface{} {
	if integer, err := written.Int64(); err == nil {
		return integer
	}
	float, err := written.Float64()
	check(err)
	return float
}

// schemaOf is what the API server makes of a schema: integers in enum stay such, int-or-string is two types, and unknown formats go.
func schemaOf(tree interface{}) *spec.Schema {
	written := tree.(map[string]interface{})
	text, err := json.Marshal(written)
	check(err)
	schema := &spec.Schema{}
	check(json.Unmarshal(text, schema))
	schema.Enum, _ = written["enum"].([]interface{})
	if written["x-kubernetes-int-or-string"] == true {
		schema.Type = spec.StringOrArray{"integer", "string"}
	}
	if !strfmt.Default.ContainsName(schema.Format) {
		schema.Format = ""
	}
	addParts(schema, written)
	return schema
}

func addParts(schema *spec.Schema, written map[string]interface{}) {
	schema.AllOf = schemasOf(written["allOf"])
	schema.AnyOf = schemasOf(written["anyOf"])
	schema.OneOf = schemasOf(written["oneOf"])
	if schema.Not != nil {
		schema.Not = schemaOf(written["not"])
	}
	if schema.Items != nil {
		schema.Items.Schema = schemaOf(written["items"])
	}
	if others, ok := written["additionalProperties"].(map[string]interface{}); ok {
		schema.AdditionalProperties = &spec.SchemaOrBool{Allows: true, Schema: schemaOf(others)}
	}
	for name := range schema.Properties {
		schema.Properties[name] = *schemaOf(written["properties"].(map[string]interface{})[name])
	}
}

func schemasOf(tree interface{}) []spec.Schema {
	branches, _ := tree.([]interface{})
	schemas := make([]spec.Schema, 0, len(branches))
	for _, branch := range branches {
		schemas = append(schemas, *schemaOf(branch))
	}
	return schemas
}

func judged(schema *spec.Schema, value interface{}) (said string) {
	defer func() {
		if fault := recover(); fault != nil {
			said = fmt.Sprint("panic: ", fault)
		}
	}()
	if validate.NewSchemaValidator(schema, nil, "", strfmt.Default).Validate(value).IsValid() {
		return "1"
	}
	return "0"
}

func answer(line string) string {
	texts := strings.Split(line, "\t")
	return judged(schemaOf(treeOf(texts[0])), treeOf(texts[1]))
}

func main() {
	in := bufio.NewScanner(os.Stdin)
	in.Buffer(nil, 1<<24)
	out := bufio.NewWriter(os.Stdout)
	for in.Scan() {
		fmt.Fprintln(out, answer(in.Text()))
	}
	check(in.Err())
	check(out.Flush())
}
