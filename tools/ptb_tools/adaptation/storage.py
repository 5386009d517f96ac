"""Gives each variable of a listing a letter, and each array and each number of DATA a place in the array @."""

from __future__ import annotations

from dataclasses import dataclass
from string import ascii_uppercase
from typing import Dict, Iterable, List, Set, Tuple

from .dialects import Dialect
from .notes import ByHand
from .sums import plus, times
from .trees import Binary, Call, Element, Name, Number, Statement, Unary, number, walk

DEFAULT_LIMIT = 10  # of the indices of an array without DIM


@dataclass(frozen=True)
class Place:
    """The part of @ that an array has: its first index, and how many elements each of its dimensions has."""

    offset: int
    sizes: Tuple[int, ...]

    def length(self) -> int:
        """The number of elements."""
        total = 1
        for size in self.sizes:
            total *= size
        return total


class Storage:
    """Where the variables, the arrays and the data of a listing are kept."""

    def __init__(self, statements: List[Statement], dialect: Dialect) -> None:
        nodes = list(walk(tuple(statements)))
        self.functions = {it.parts[0].name: it for it in nodes if isinstance(it, Statement) and it.word == "DEF"}
        self.data = [part for it in nodes if isinstance(it, Statement) and it.word == "DATA" for part in it.parts]
        self.shared = any(isinstance(it, Element) and it.name == "@" for it in nodes)
        self.letters: Dict[str, str] = {}
        self.cells: Dict[str, int] = {}
        self.places: Dict[str, Place] = {}
        self.used: Set[str] = set()
        self.next_index = len(self.data)
        self.give_letters(self.scalars(nodes), loop_variables(nodes))
        self.give_places(nodes, dialect)
        self.pointer = self.place_of_pointer() if self.data else ""

    # ---- variables

    def scalars(self, nodes: List[object]) -> List[str]:
        """The variables of the listing, in the order in which they are met, without the parameters of functions."""
        parameters = {part.name for it in self.functions.values() for part in it.parts[1]}
        named: Dict[str, None] = {}
        for node in nodes:
            if isinstance(node, Name) and node.name not in self.functions:
                named.setdefault(node.name)
        inside = {it.name for it in walk(tuple(it.parts[2] for it in self.functions.values())) if isinstance(it, Name)}
        outside = [it for it in nodes if isinstance(it, Statement) and it.word != "DEF" and not it.then]
        free = {it.name for it in walk(tuple(it.parts for it in outside)) if isinstance(it, Name)}
        return [name for name in named if name not in parameters or name in free or name not in inside]

    def give_letters(self, names: List[str], loops: Set[str]) -> None:
        """Letters for the variables, those of loops first, and elements of @ for those that find none."""
        for name in names:
            if len(name) == 1:
                self.letters[name] = name
        self.used = set(self.letters)
        for name in sorted((it for it in names if len(it) > 1), key=lambda it: it not in loops):
            letter = self.letter_for(name)
            if letter:
                self.letters[name] = letter
            else:
                self.cells[name] = self.next_index
                self.next_index += 1

    def letter_for(self, name: str) -> str:
        """A free letter: one of the name where there is one; nothing where all are used."""
        for letter in name + ascii_uppercase[::-1]:
            if letter in ascii_uppercase and letter not in self.used:
                self.used.add(letter)
                return letter
        return ""

    def free_letter(self) -> str:
        """A letter that the listing doesn't use."""
        letter = self.letter_for("")
        if not letter:
            raise ByHand("all 26 letters are variables, and one more is needed")
        return letter

    def place_of_pointer(self) -> str:
        """What counts the numbers of DATA that are read: a free letter, or an element of @."""
        letter = self.letter_for("")
        if letter:
            return letter
        self.next_index += 1
        return f"@({self.next_index - 1})"

    # ---- arrays

    def give_places(self, nodes: List[object], dialect: Dialect) -> None:
        """Parts of @ for the arrays: first those of DIM, then those without."""
        for node in nodes:
            if isinstance(node, Statement) and node.word == "DIM":
                for part in node.parts:
                    self.give_place(part.name, sizes_of(part))
        for node in nodes:
            if isinstance(node, Element) and node.name not in {"@", *self.places, *self.functions}:
                self.give_place(node.name, tuple(DEFAULT_LIMIT + 1 for _ in node.indices))

    def give_place(self, name: str, sizes: Tuple[int, ...]) -> None:
        """A part of @ for an array."""
        self.places[name] = Place(self.next_index, sizes)
        self.next_index += self.places[name].length()

    # ---- trees

    def mapped(self, tree: object) -> object:
        """The tree with letters and elements of @ for the variables and arrays of the listing."""
        if isinstance(tree, Name):
            return self.variable(tree.name)
        if isinstance(tree, Unary):
            return Unary(tree.sign, self.mapped(tree.operand))
        if isinstance(tree, Binary):
            return Binary(tree.sign, self.mapped(tree.left), self.mapped(tree.right))
        if isinstance(tree, Call):
            return Call(tree.name, tuple(self.mapped(it) for it in tree.arguments))
        if isinstance(tree, Element):
            return self.element(tree)
        return tree

    def variable(self, name: str) -> object:
        """The letter of a variable, or its element of @."""
        if name in self.cells:
            return Element("@", (number(self.cells[name]),))
        if name not in self.letters:
            raise ByHand(f"the variable {name} has no place")
        return Name(self.letters[name])

    def element(self, tree: Element) -> Element:
        """The element of @ for an element of an array."""
        indices = [self.mapped(it) for it in tree.indices]
        if tree.name == "@":
            if len(indices) == 1 and not self.next_index:
                return Element("@", (indices[0],))
            raise ByHand("@ is used beside other arrays; give each its own part of @")
        place = self.places[tree.name]
        if len(indices) != len(place.sizes):
            raise ByHand(f"{tree.name} has another number of indices elsewhere")
        index = indices[0]
        for size, following in zip(place.sizes[1:], indices[1:]):
            index = plus(times(number(size), index), following)
        return Element("@", (plus(index, number(place.offset)) if place.offset else index,))

    # ---- what is reported

    def renamed(self) -> List[Tuple[str, str]]:
        """The new and the old names of the variables that have other ones, and of the arrays."""
        letters = [(letter, name) for name, letter in self.letters.items() if letter != name]
        cells = [(f"@({index})", name) for name, index in self.cells.items()]
        return letters + cells

    def arrays(self) -> List[str]:
        """Where the arrays are, as a person says it."""
        return [f"{name}({zeros(place)}) is @({place.offset})" for name, place in self.places.items()]


def zeros(place: Place) -> str:
    """The indices of the first element of an array."""
    return ",".join("0" for _ in place.sizes)


def sizes_of(tree: Element) -> Tuple[int, ...]:
    """How many elements each dimension of DIM has."""
    if not isinstance(tree, Element) or not all(isinstance(it, Number) for it in tree.indices):
        raise ByHand("DIM with a size that is not a number")
    return tuple(int(it.value) + 1 for it in tree.indices)


def loop_variables(nodes: Iterable[object]) -> Set[str]:
    """The variables of FOR."""
    loops = [it for it in nodes if isinstance(it, Statement) and it.word == "FOR"]
    return {it.parts[0].name for it in loops}
