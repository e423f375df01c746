#!/usr/bin/env python3
"""A processor that makes a builder for each class with the annotation shop.Builder.

The builder of a class C is CBuilder, in its package: it has a method for each instance field of C, and `build()`, which
makes a C by the constructor that takes all of them in order. `@Builder(prefix = "with")` has the methods named
`withName`. What has no such constructor is an error at the class, and a field whose type is declared nowhere one at the
field. The kit for processors, kits/python/dinxobhe.py, is copied beside it.
"""
import dinxobhe
from dinxobhe import ElementKind, Modifier, TypeKind

BUILDER = "shop.Builder"


class Builders(dinxobhe.Processor):
    supports = [BUILDER]

    def process(self, annotations, round):
        for element in round.elements_annotated_with(BUILDER) if annotations else ():
            fields = [field for field in element.enclosed_elements
                      if field.kind is ElementKind.FIELD and Modifier.STATIC not in field.modifiers]
            if self.is_buildable(element, fields):
                package = self.elements.package_of(element).qualified_name
                name = element.qualified_name[len(package):].replace(".", "") + "Builder"
                text = builder_text(package, name, element, fields)
                self.filer.create_source(f"{package}.{name}" if package else name, text, element)

    def is_buildable(self, element, fields):
        """Whether there is a builder. Where there is none, an error says why."""
        unknown = [field for field in fields if field.as_type().kind is TypeKind.ERROR]
        for field in unknown:
            self.messager.error(f"the type {field.as_type()} is not declared", field)
        if element.kind is not ElementKind.CLASS or Modifier.ABSTRACT in element.modifiers:
            self.messager.error(f"{element.simple_name} is no class that can be made", element)
        elif not unknown and not any(self.takes(member, fields) for member in element.enclosed_elements):
            types = ", ".join(str(field.as_type()) for field in fields)
            self.messager.error(f"{element.simple_name} has no constructor ({types})", element)
        else:
            return not unknown
        return False

    def takes(self, member, fields):
        """Whether this is a constructor that a builder can call with the fields."""
        if member.kind is not ElementKind.CONSTRUCTOR or Modifier.PRIVATE in member.modifiers:
            return False
        parameters = member.parameters
        return len(parameters) == len(fields) and all(
            self.types.is_same_type(parameter.as_type(), field.as_type())
            for parameter, field in zip(parameters, fields))


def builder_text(package, name, element, fields):
    """The source of the builder of a class."""
    variables, arguments = type_parameters(element)
    prefix = element.annotation(BUILDER)["prefix"]
    public = "public " if Modifier.PUBLIC in element.modifiers else ""
    lines = [f"package {package};", ""] if package else []
    lines += [f"{public}final class {name}{variables} {{"]
    lines += [f"  private {field.as_type()} {field.simple_name};" for field in fields]
    for field in fields:
        lines += ["", f"  public {name}{arguments} {setter(prefix, field)}({field.as_type()} {field.simple_name}) {{",
                  f"    this.{field.simple_name} = {field.simple_name};", "    return this;", "  }"]
    values = ", ".join(field.simple_name for field in fields)
    lines += ["", f"  public {element.as_type()} build() {{", f"    return new {element.as_type()}({values});", "  }"]
    return "\n".join([*lines, "}", ""])


def type_parameters(element):
    """The type parameters of a class as they are declared, and as the arguments of its type."""
    names = [parameter.simple_name for parameter in element.type_parameters]
    bounds = [" & ".join(map(str, parameter.bounds)) for parameter in element.type_parameters]
    if not names:
        return "", ""
    declared = ", ".join(f"{name} extends {bound}" for name, bound in zip(names, bounds))
    return f"<{declared}>", f"<{', '.join(names)}>"


def setter(prefix, field):
    name = field.simple_name
    return prefix + name[:1].upper() + name[1:] if prefix else name


if __name__ == "__main__":
    dinxobhe.run(Builders)
