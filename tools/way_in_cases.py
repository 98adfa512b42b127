"""Schemas of the keywords that decide what becomes of an object on its way in, and objects near them, drawn at random."""
from __future__ import annotations

import copy
import random
from typing import Dict

from crdx_schemas.documents import Json

Schema = Dict[str, Json]

NAMES = ("a", "b", "c")
ENVELOPE = ("apiVersion", "kind", "metadata")
SCALARS: tuple[Json, ...] = (None, None, True, 0, 1, -3, 0.5, "", "a", "b")
METADATA: Schema = {
    "annotations": {"a": "1"},
    "creationTimestamp": "2024-01-02T03:04:05Z",
    "deletionGracePeriodSeconds": 0,
    "finalizers": ["a"],
    "generateName": "g-",
    "generation": 3,
    "labels": {"app": "a", "b": ""},
    "managedFields": [{"manager": "m", "operation": "Update", "apiVersion": "v1", "fieldsType": "FieldsV1", "fieldsV1": {"f:a": {}}, "z": 1}],
    "name": "n",
    "namespace": "s",
    "ownerReferences": [{"apiVersion": "v1", "kind": "K", "name": "o", "uid": "u", "controller": False, "blockOwnerDeletion": None, "z": 1}],
    "resourceVersion": "7",
    "selfLink": "/a",
    "uid": "u",
    "zz": {"name": "a"},
    "spec": 1,
}
# what is not written where it is empty, with its empty values
EMPTY: Dict[str, tuple[Json, ...]] = {
    "annotations": (None, {}),
    "creationTimestamp": (None,),
    "deletionTimestamp": (None,),
    "finalizers": (None, []),
    "generation": (None, 0),
    "labels": (None, {}),
    "managedFields": (None, []),
    "name": (None, ""),
    "ownerReferences": (None, []),
}


class Cases:
    """Draws schemas and objects."""

    def __init__(self, draw: random.Random) -> None:
        self.draw = draw

    def case(self) -> tuple[Schema, Schema]:
        schema = self.schema(self.draw.choice((1, 2, 3, 3)))
        value = self.of_object(schema, 4)
        return schema, {**value, **self.envelope()}

    def is_drawn(self, share: float) -> bool:
        return self.draw.random() < share

    # ---- schemas

    def schema(self, depth: int) -> Schema:
        made: Schema = {"type": self.draw.choice(("object", "object", "array", "string", "integer"))}
        if depth:
            made.update(self.below(depth - 1))
        for word, share in (("x-kubernetes-preserve-unknown-fields", 0.15), ("x-kubernetes-embedded-resource", 0.1), ("nullable", 0.25)):
            if self.is_drawn(share):
                made[word] = True
        if self.is_drawn(0.35):
            made["default"] = self.value(made if self.is_drawn(0.6) else {}, 2)
        return made

    def below(self, depth: int) -> Schema:
        made: Schema = {}
        if self.is_drawn(0.7):
            made["properties"] = {name: self.schema(depth) for name in self.names()}
        if self.is_drawn(0.3):
            made["additionalProperties"] = self.schema(depth) if self.is_drawn(0.7) else self.is_drawn(0.9)
        if self.is_drawn(0.4):
            made["items"] = self.schema(depth)
        return made

    def names(self) -> list[str]:
        some = self.draw.sample(NAMES, self.draw.randint(0, 3))
        return some + (["metadata"] if self.is_drawn(0.05) else []) + (["kind"] if self.is_drawn(0.05) else [])

    # ---- values

    def value(self, schema: Json, depth: int) -> Json:
        asked = schema if isinstance(schema, dict) else {}
        if not depth or self.is_drawn(0.25):
            return self.draw.choice(SCALARS)
        if asked.get("type") == "array" or ("items" in asked and self.is_drawn(0.3)) or self.is_drawn(0.15):
            return [self.value(asked.get("items"), depth - 1) for _ in range(self.draw.randint(0, 3))]
        made = self.of_object(asked, depth)
        return {**made, **self.envelope()} if asked.get("x-kubernetes-embedded-resource") else made

    def of_object(self, schema: Schema, depth: int) -> Schema:
        properties, others = schema.get("properties"), schema.get("additionalProperties")
        declared = properties if isinstance(properties, dict) else {}
        names = {*(name for name in declared if self.is_drawn(0.6)), *self.draw.sample((*NAMES, "d"), self.draw.randint(0, 2))}
        made = {name: self.value(declared.get(name, others), depth - 1) for name in sorted(names)}
        return {**made, **({"metadata": self.draw.choice(SCALARS)} if self.is_drawn(0.03) else {})}

    # ---- the envelope of a resource, which is read, or it is refused

    def envelope(self) -> Schema:
        made: Schema = {"apiVersion": "v1", "kind": "K", "metadata": self.metadata()}
        return {name: member for name, member in made.items() if self.is_drawn(0.8)}

    def metadata(self) -> Schema:
        made = {name: copy.deepcopy(METADATA[name]) for name in self.draw.sample(sorted(METADATA), self.draw.randint(0, 5))}
        if self.is_drawn(0.4):
            name = self.draw.choice(sorted(EMPTY))
            made[name] = self.draw.choice(EMPTY[name])
        return made
