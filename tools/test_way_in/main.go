// For tools/test_way_in.py: the same as main.rt.txt beside it, by the code by which the API server reads an object of a definition.
package main

import (
	"bufio"
	"encoding/json"
	"fmt"
	"os"
	"strings"

	"k8s.io/apiextensions-apiserver/pkg/apis/apiextensions"
	apiextensionsv1 "k8s.io/apiextensions-apiserver/pkg/apis/apiextensions/v1"
	"k8s.io/apiextensions-apiserver/pkg/apiserver/schema"
	"k8s.io/apiextensions-apiserver/pkg/apiserver/schema/defaulting"
	"k8s.io/apiextensions-apiserver/pkg/apiserver/schema/objectmeta"
	"k8s.io/apiextensions-apiserver/pkg/apiserver/schema/pruning"
	"k8s.io/apimachinery/pkg/apis/meta/v1/unstructured"
	"k8s.io/apimachinery/pkg/runtime"
	utiljson "k8s.io/apimachinery/pkg/util/json"
)

func check(err error) {
	if err != nil {
		panic(err)
	}
}

func structuralOf(text string) *schema.Structural {
	written := &apiextensionsv1.JSONSchemaProps{}
	check(json.Unmarshal([]byte(text), written))
	internal := &apiextensions.JSONSchemaProps{}
	check(apiextensionsv1.Convert_v1_JSONSchemaProps_To_apiextensions_JSONSchemaProps(written, internal, nil))
	structural, err := schema.NewStructural(internal)
	check(err)
	return structural
}

func objectOf(text string) map[string]interface{} {
	object := map[string]interface{}{}
	check(utiljson.Unmarshal([]byte(text), &object))
	return object
}

func pruned(object map[string]interface{}, structural *schema.Structural) map[string]interface{} {
	object = runtime.DeepCopyJSON(object)
	pruning.Prune(object, structural, true)
	return object
}

// wayIn is what the API server does: the envelope of the object itself is kept aside.
func wayIn(object map[string]interface{}, structural *schema.Structural) (map[string]interface{}, error) {
	object = runtime.DeepCopyJSON(object)
	kept := map[string]interface{}{}
	for _, name := range []string{"apiVersion", "kind"} {
		member, found, err := unstructured.NestedString(object, name)
		if err != nil {
			return nil, err
		}
		if found {
			kept[name] = member
		}
	}
	meta, found, err := objectmeta.GetObjectMeta(object, false)
	if err != nil {
		return nil, err
	}
	pruning.Prune(object, structural, false)
	defaulting.PruneNonNullableNullsWithoutDefaults(object, structural)
	if err := objectmeta.Coerce(nil, object, structural, false, false); err != nil {
		return nil, err
	}
	for name, member := range kept {
		object[name] = member
	}
	if found {
		check(objectmeta.SetObjectMeta(object, meta))
		// later releases do not write it where it is not set
		if meta.CreationTimestamp.IsZero() {
			unstructured.RemoveNestedField(object, "metadata", "creationTimestamp")
		}
	}
	defaulting.Default(object, structural)
	return object, nil
}

func textOf(tree interface{}) string {
	text, err := json.Marshal(tree)
	check(err)
	return string(text)
}

func answer(line string) string {
	texts := strings.Split(line, "\t")
	structural, object := structuralOf(texts[0]), objectOf(texts[1])
	made, err := wayIn(object, structural)
	if err != nil {
		return textOf(pruned(object, structural)) + "\trefused"
	}
	return textOf(pruned(object, structural)) + "\t" + textOf(made)
}

func main() {
	in := bufio.NewScanner(os.Stdin)
	in.Buffer(nil, 1<<24)
	out := bufio.NewWriter(os.Stdout)
	for in.Scan() {
		fmt.Fprintln(out, answer(in.Text()))
	}
	check(in.Err())
	check(out.Flush())
}
