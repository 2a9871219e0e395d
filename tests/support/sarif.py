"""Whether a log keeps to SARIF 2.1.0, by the object model that was generated from its schema."""

import json
from typing import Any

import attr
import sarif_om

# The class of the value, or of each element of the array, that a property has; the others are text,
# numbers, truth values and arrays of these.
CLASSES = {
    "runs": sarif_om.Run, "tool": sarif_om.Tool, "driver": sarif_om.ToolComponent,
    "rules": sarif_om.ReportingDescriptor, "results": sarif_om.Result,
    "message": sarif_om.Message, "locations": sarif_om.Location, "location": sarif_om.Location,
    "physicalLocation": sarif_om.PhysicalLocation, "artifactLocation": sarif_om.ArtifactLocation,
    "region": sarif_om.Region, "logicalLocations": sarif_om.LogicalLocation,
    "stacks": sarif_om.Stack, "frames": sarif_om.StackFrame, "codeFlows": sarif_om.CodeFlow,
    "threadFlows": sarif_om.ThreadFlow, "invocations": sarif_om.Invocation,
}


def check(value: Any, kind: type, where: str) -> None:
    """Each property is one of the class, and each that the class requires is there."""
    assert isinstance(value, dict), where
    fields = {field.metadata["schema_property_name"]: field for field in attr.fields(kind)}
    missing = {name for name, field in fields.items()
               if field.default is attr.NOTHING and name not in value}
    assert not missing, f"{where}: no {missing}"
    for name, held in value.items():
        assert name in fields, f"{where}: {name} is no property"
        inner = CLASSES.get(name)
        if name == "locations" and kind is sarif_om.ThreadFlow:
            inner = sarif_om.ThreadFlowLocation
        for one in held if isinstance(held, list) else [held]:
            if inner is None:
                assert isinstance(one, (str, int)), f"{where}.{name}"
            else:
                check(one, inner, f"{where}.{name}")


def read(text: str) -> Any:
    """The one run of a log that keeps to the standard."""
    log = json.loads(text)
    schema = log.pop("$schema")
    assert schema == "https://json.schemastore.org/sarif-2.1.0.json" and log["version"] == "2.1.0"
    check(log, sarif_om.SarifLog, "log")
    assert len(log["runs"]) == 1
    return log["runs"][0]
