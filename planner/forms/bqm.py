"""dimod's BQM as JSON (`to_serializable`, schema 3.0.0): least offset + linear + quadratic terms, with no half.

Of values 0 and 1, c is the linear bias, q twice the quadratic one, and the constant the offset; of spins as spins.py says.
"""
import json

from ..faults import Fault
from ..numbers import fraction, weight
from .spins import Spins, fill_binary


class Digits(str):
    """A number of the JSON as its digits."""


def bias(value):
    """The weight that a JSON number is."""
    if not isinstance(value, Digits):
        raise Fault(f"{plain(value)} is no number")
    return weight(value)


def listed(model, key, length=None):
    """A list of the model, as long as it must be."""
    found = model.get(key)
    if not isinstance(found, list):
        raise Fault(f"{key} is no list")
    if length is not None and len(found) != length:
        raise Fault(f"{key} has {len(found)} items, and not {length}")
    return found


def label(value):
    """The name of a variable: a text as it is, everything else as its JSON."""
    return value if isinstance(value, str) and not isinstance(value, Digits) else plain(value)


def plain(value):
    """A value as its JSON."""
    if isinstance(value, list):
        return "[" + ", ".join(map(plain, value)) + "]"
    return str(value) if isinstance(value, Digits) else json.dumps(value, ensure_ascii=False)


def position(value):
    """The number of a variable, from 0."""
    if not isinstance(value, Digits) or not value.isascii() or not value.isdigit() or len(value) > 9:
        raise Fault(f"{plain(value)} is no number of a variable")
    return int(value)


def read(lines, builder):
    """Takes a model."""
    try:
        model = json.loads("\n".join(lines), parse_float=Digits, parse_int=Digits, parse_constant=Digits)
        builder.each([(None, model)], lambda model: take_model(builder, model))
    except RecursionError:
        builder.fault("no JSON that can be read: it is nested too deep")
    except json.JSONDecodeError as fault:
        builder.line = fault.lineno
        builder.fault(f"no JSON: {fault.msg}")


def take_model(builder, model):
    """The labels, the biases and the offset."""
    if not isinstance(model, dict) or model.get("type") != "BinaryQuadraticModel":
        raise Fault("no model of dimod: its type is not BinaryQuadraticModel")
    if model.get("use_bytes"):
        raise Fault("its lists are bytes: write it with use_bytes=False")
    if model.get("variable_type") not in ("BINARY", "SPIN"):
        raise Fault("its variable_type is neither BINARY nor SPIN")
    labels = listed(model, "variable_labels")
    linear = listed(model, "linear_biases", len(labels))
    quadratic = listed(model, "quadratic_biases")
    ends = [listed(model, key, len(quadratic)) for key in ("quadratic_head", "quadratic_tail")]
    builder.each(((f"variable_labels[{i}]", name) for i, name in enumerate(labels)), lambda name: builder.group(label(name), None))
    if builder.faults:
        return
    take = Spins(builder) if model["variable_type"] == "SPIN" else None
    fill = take.take if take else lambda *triple: fill_binary(builder, *triple)
    builder.each(((f"linear_biases[{i}]", (i, w)) for i, w in enumerate(linear)), lambda item: fill(item[0], item[0], bias(item[1])))
    terms = ((f"quadratic_biases[{k}]", (*ends_at, w)) for k, (*ends_at, w) in enumerate(zip(*ends, quadratic)))
    builder.each(terms, lambda term: take_term(builder, fill, *term))
    builder.each([("offset", model.get("offset", Digits("0")))], lambda value: take_offset(builder, value))
    if take and not builder.faults:
        take.finish()


def take_term(builder, fill, row, column, w):
    """One quadratic term, whose ends are two."""
    row, column = builder.place(position(row)), builder.place(position(column))
    if row == column:
        raise Fault("a term of one variable with itself")
    fill(row, column, bias(w))


def take_offset(builder, value):
    """The constant, as it stands."""
    bias(value)
    builder.constant += fraction(value)


def write(plan, rounding):
    """The model, with a label for every group and a term for every entry, in its order."""
    halves = []
    for row, column, q in plan.entries:
        halves.append(rounding.times(0.5, q, f"half the weight of the pair {plan.names[row]} and {plan.names[column]}"))
    model = {
        "type": "BinaryQuadraticModel", "version": {"bqm_schema": "3.0.0"}, "use_bytes": False, "index_type": "uint16", "bias_type": "float64",
        "num_variables": len(plan.names), "num_interactions": len(halves), "variable_labels": plan.names, "variable_type": "BINARY",
        "offset": rounding.of(plan.constant, "the constant"), "info": {}, "linear_biases": plan.linear, "quadratic_biases": halves,
        "quadratic_head": [row for row, _, _ in plan.entries], "quadratic_tail": [column for _, column, _ in plan.entries],
    }
    return json.dumps(model, ensure_ascii=True, indent=1) + "\n"
