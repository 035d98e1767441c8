"""docs/reference/python_api.md: the public names of clients/python, from their docstrings."""
import ast
import textwrap

from gen_docs.pages import Missing, closing, opening

PACKAGE = "clients/python/yehatu"
PREFACE = """
Everything that `import yehatu` offers. The [Python client](../../clients/python/README.md) shows how to use it.
"""


def exported(package):
    """The names of `__all__`: the source, the definition, and all definitions of that source."""
    tree = ast.parse((package / "__init__.py").read_text(encoding="utf-8"))
    names = next(ast.literal_eval(it.value) for it in tree.body
                 if isinstance(it, ast.Assign) and it.targets[0].id == "__all__")
    modules = {name.name: it.module for it in tree.body if isinstance(it, ast.ImportFrom) and it.level
               for name in it.names}
    for name in names:
        path = package / f"{modules[name]}.py"
        definitions = ast.parse(path.read_text(encoding="utf-8")).body
        yield from ((path, it, definitions) for it in definitions if getattr(it, "name", None) == name)


def signature(function, name, is_method):
    """The signature as Python writes it, wrapped where it is too long for a line."""
    parts = parameters(function.args)[1 if is_method else 0 :]
    result = f" -> {ast.unparse(function.returns)}" if function.returns else ""
    line = f"{name}({', '.join(parts)}){result}"
    return line if len(line) <= 100 else f"{name}(\n" + "".join(f"    {it},\n" for it in parts) + f"){result}"


def parameters(arguments):
    """The parameters, each as Python writes it."""
    found, defaults = [], [None] * (len(arguments.args) - len(arguments.defaults)) + arguments.defaults
    for it, default in zip(arguments.args, defaults):
        found.append(parameter(it, default))
    if arguments.kwonlyargs:
        found.append("*")
    return found + [parameter(it, default) for it, default in zip(arguments.kwonlyargs, arguments.kw_defaults)]


def parameter(it, default):
    text = ast.unparse(it)
    return text if default is None else f"{text} = {ast.unparse(default)}"


def described(node, place, faults):
    """The docstring, with a fault where there is none."""
    text = ast.get_docstring(node)
    if not text:
        faults.append(f"{place}:{node.lineno}: the public name `{node.name}` has no docstring")
    return f"{text or ''}\n"


def is_property(method):
    return any(isinstance(it, ast.Name) and it.id == "property" for it in method.decorator_list)


def methods(node):
    return [it for it in node.body if isinstance(it, ast.FunctionDef) and not it.name.startswith("_")]


def fields(node):
    """The annotated fields of a named tuple, as Python writes them."""
    return [ast.unparse(it) for it in node.body if isinstance(it, ast.AnnAssign)]


def attributes(node, definitions):
    """The described attributes that a class has from a base of its module, and those of its own."""
    bases = [it for base in node.bases for it in definitions if getattr(it, "name", "") == ast.unparse(base)]
    text = "".join(attributes(it, definitions) for it in bases)
    start = next((it for it in node.body if getattr(it, "name", "") == "__init__"), None)
    body = start.body if start else []
    for it, following in zip(body, body[1:]):
        is_attribute = isinstance(it, ast.Assign) and isinstance(it.targets[0], ast.Attribute)
        if is_attribute and isinstance(following, ast.Expr) and isinstance(following.value, ast.Constant):
            text += f"- `{it.targets[0].attr}`: {following.value.value}\n"
    return text


def class_part(node, place, faults, definitions):
    """A class: its constructor or its fields, its docstring, and its public methods."""
    start = next((it for it in node.body if getattr(it, "name", "") == "__init__"), None)
    bases = ", ".join(ast.unparse(it) for it in node.bases)
    declaration = f"class {node.name}({bases})" if bases else f"class {node.name}"
    is_error = any(it.endswith(("Error", "Failed")) for it in map(ast.unparse, node.bases))
    if start is not None and not is_error:
        declaration = signature(start, node.name, True).replace(" -> None", "")
    lines = [declaration + ":" if fields(node) else declaration, *(f"    {it}" for it in fields(node))]
    text = "\n```python\n" + "\n".join(lines) + "\n```\n\n" + described(node, place, faults)
    listed = attributes(node, definitions)
    text += f"\nAttributes:\n\n{listed}" if listed else ""
    for method in methods(node):
        name = f"{node.name}.{method.name}"
        shown = f"{method.name}: {ast.unparse(method.returns)}" if is_property(method) else \
            signature(method, method.name, True)
        text += f"\n#### `{name}`\n\n```python\n{shown}\n```\n\n" + described(method, place, faults)
    return text


def page(top):
    faults, text = [], opening("Python API", PACKAGE) + PREFACE
    for path, node, definitions in exported(top / PACKAGE):
        place = str(path.relative_to(top))
        text += f"\n### `{node.name}`\n"
        if isinstance(node, ast.ClassDef):
            text += class_part(node, place, faults, definitions)
        else:
            shown = textwrap.dedent(signature(node, node.name, False))
            text += f"\n```python\n{shown}\n```\n\n" + described(node, place, faults)
    if faults:
        raise Missing(faults)
    return text.replace("\n### ", "\n## ").replace("\n#### ", "\n### ") + closing(1)
