"""The meaning of instances: the crate `scad_meaning`. The first fault is raised; the turns and the leaves so far are
counted."""

from __future__ import annotations

from dataclasses import dataclass
from typing import Iterable, NamedTuple, Sequence, TypeVar

from .int_transform import image, map_of
from .plane_predicate import point_at
from .primitives import (
    Mesh, Points, cube_of, extrusion_of, polygon_fault, polygon_of, polyhedron_fault, polyhedron_of, size_fault, square_of)
from .round_four import circle_fault, circle_of, cylinder_fault, cylinder_of
from .scad_ast import (
    ArgTerm, BodyTerm, CoreTerm, ForTerm, IfTerm, InstanceTerm, ModuleCallTerm, SpecialArgTerm, StatementTerms)
from .scad_definitions import (
    Arguments, SourceAssignment, SourceModule, assignments_of, destination_of, first_bindings, functions_standing_in, in_order,
    modules_standing_in, no_arguments_of, once, parameter_names, with_argument)
from .scad_design import ALeaf, DesignTree, JoinedDesigns, balanced_join, empty, join_children, moved_design_tree, stays_safe
from .scad_func import (
    Activation, Counts, Env, ExpressionContext, InnerScope, activation_in, each_argument, each_parameter, entered_scope,
    most_calls, most_evaluations, nothing_defined, one_call_fewer, outcome_of_answer, turn, value_at_next_depth, visible_module)
from .scad_hull import Hull, hull_of, hull_stop
from .scad_modules import (
    AFlat, AHull, AJoin, AMove, AnExtrusion, ASolid, Call, CircleCall, CubeCall, CylinderCall, EffectCall, NoGeometry,
    PolygonCall, PolyhedronCall, SomeChildren, SquareCall, effect_of, is_left_out_module, parameters_of)
from .scad_value import RangeVal, Val, truth_of
from .text_place import Fault, Place

A = TypeVar("A")
most_leaves = 1024


def is_union(design: DesignTree) -> bool:
    """A design with no join but unions."""
    if isinstance(design, JoinedDesigns):
        return design.op == "union" and is_union(design.left) and is_union(design.right)
    return True


def leaves_of(design: DesignTree) -> list[ALeaf]:
    """All leaves from left to right."""
    if isinstance(design, JoinedDesigns):
        return leaves_of(design.left) + leaves_of(design.right)
    return [design] if isinstance(design, ALeaf) else []


def points_of(design: DesignTree) -> Points:
    """The points of all leaves from left to right, each moved by its leaf's steps."""
    moved = [(shape.mesh.points, map_of(shape.steps)) for shape in leaves_of(design)]
    return [list(image(whole, point_at(p))[:3]) for points, whole in moved for p in points]


def hull_fault(design: DesignTree) -> str | None:
    """Why a design has no hull, the first that holds: it has a join other than a union; a coordinate of a leaf's point is past
    2^53 - 1 after a step; or the points have none."""
    if not is_union(design):
        return "NotInProfile"
    return "TooLarge" if not all(map(stays_safe, leaves_of(design))) else hull_stop(points_of(design))


def solid_verdict(half: bool, call: CubeCall | PolyhedronCall | CylinderCall) -> str | None:
    """The first check of a solid that fails."""
    if isinstance(call, CubeCall):
        return size_fault(half, call.center, call.size)
    if isinstance(call, PolyhedronCall):
        return polyhedron_fault(half, call.points, call.faces)
    return cylinder_fault(half, *call)


def flat_verdict(half: bool, call: SquareCall | PolygonCall | CircleCall) -> str | None:
    """The first check of a flat shape that fails."""
    if isinstance(call, SquareCall):
        return size_fault(half, call.center, call.size)
    return polygon_fault(half, call.points) if isinstance(call, PolygonCall) else circle_fault(half, call.radius)


def solid_mesh(half: bool, call: CubeCall | PolyhedronCall | CylinderCall) -> Mesh:
    """The shape with nothing wrong, in grid steps."""
    if isinstance(call, CubeCall):
        return cube_of(half, call.center, call.size)
    return polyhedron_of(half, *call) if isinstance(call, PolyhedronCall) else cylinder_of(half, *call)


def flat_points(half: bool, call: SquareCall | PolygonCall | CircleCall) -> Points:
    """The points of a flat shape with nothing wrong, in grid steps."""
    if isinstance(call, SquareCall):
        return square_of(half, call.center, call.size)
    return polygon_of(half, call.points) if isinstance(call, PolygonCall) else circle_of(half, call.radius)


def has_modifier(instance: InstanceTerm, modifiers: str) -> bool:
    return bool(instance.modifiers) and any(mark.modifier in modifiers for mark in instance.modifiers)


@once
def evaluated_instances(statements: StatementTerms) -> list[InstanceTerm]:
    """The instances of a body that are evaluated: one marked `*` or `%` counts as not written."""
    return [it for it in in_order(statements) if isinstance(it, InstanceTerm) and not has_modifier(it, "*%")]


def has_no_geometry(env: Env, core: CoreTerm) -> bool:
    """`echo` and `assert`, where the source defines no module of that name, seen from the scope."""
    return isinstance(core, ModuleCallTerm) and core.name in (b"echo", b"assert") and visible_module(env, core.name) is None


def children_in(env: Env, statements: StatementTerms) -> list[InstanceTerm]:
    """The children of a call with this body, in the body's scope."""
    return [it for it in evaluated_instances(statements) if not has_no_geometry(env, it.core)]


def is_bare(body: BodyTerm) -> bool:
    """A body without statements: `;` or `{ }`."""
    return body.form != "instance" and not body.statements.items


def numbers_of_range(val: RangeVal) -> range:
    """The numbers of a range: none where its step leads away from its end."""
    return range(val.start, val.to + (1 if val.step > 0 else -1), val.step)


def iterated_values(value: Val) -> Iterable[Val] | None:
    """The items of a list, or the numbers of a range."""
    return value if type(value) is tuple else numbers_of_range(value) if type(value) is RangeVal else None


def chosen_among(children: Sequence[A], chosen: list[int] | RangeVal) -> list[A]:
    """The chosen ones of some children, in the order in which they are chosen; a number that none has chooses nothing. The
    numbers of a range ascend or descend, and there may be very many of them, so the children's own are gone through."""
    if isinstance(chosen, RangeVal):
        numbers = numbers_of_range(chosen)
        own = range(len(children)) if chosen.step > 0 else range(len(children) - 1, -1, -1)
        return [children[n] for n in own if n in numbers]
    return [children[n] for n in chosen if 0 <= n < len(children)]


class Extrusion(NamedTuple):
    """The height through which shapes in the plane are moved, in units."""

    center: bool
    height: int


@dataclass(eq=False)
class Context:
    """Where an instance stands: the calls that are left, the scope, the dynamic bindings of special names, the extrusion
    that it is inside of, and whether it is inside an instance that is marked `!`."""

    __slots__ = ("calls_left", "env", "bindings", "inside", "under_root")
    calls_left: int
    env: Env
    bindings: dict[bytes, Val]
    inside: Extrusion | None
    under_root: bool


def inside_scope(here: Context, env: Env) -> Context:
    """The same context in another scope."""
    return Context(here.calls_left, env, here.bindings, here.inside, here.under_root)


def with_bindings(here: Context, dynamic: dict[bytes, Val]) -> Context:
    """The same context with more dynamic bindings in front."""
    return Context(here.calls_left, here.env, {**here.bindings, **dynamic}, here.inside, here.under_root) if dynamic else here


def with_calls_left(here: Context, calls: int) -> Context:
    """The same context with this many calls left."""
    return Context(calls, here.env, here.bindings, here.inside, here.under_root)


def inside_root(here: Context) -> Context:
    """The same context inside an instance that is marked `!`."""
    return Context(here.calls_left, here.env, here.bindings, here.inside, True)


def inside_extrusion(here: Context, through: Extrusion) -> Context:
    """The same context inside an extrusion."""
    return Context(here.calls_left, here.env, here.bindings, through, here.under_root)


@dataclass(eq=False)
class InstanceDesign:
    """What an instance gives: its design, and the first of the designs in it that is marked `!`."""

    __slots__ = ("design", "root")
    design: DesignTree
    root: DesignTree | None


class MemberDesigns:
    """What the instances of a body give, from the first on."""

    def __init__(self) -> None:
        self.designs: list[DesignTree] = []
        self.root: DesignTree | None = None

    def add(self, result: InstanceDesign, is_member: bool = True) -> None:
        """What one instance more gives: a member behind those that are there, where it is one, and a root, if there is none."""
        if is_member:
            self.designs.append(result.design)
        if self.root is None:
            self.root = result.root


no_design = InstanceDesign(empty, None)


def joined_members(op: str, members: MemberDesigns) -> InstanceDesign:
    """Members joined by an operation."""
    return InstanceDesign(join_children(op, members.designs), members.root)


@dataclass(eq=False)
class Evaluator:
    """The evaluation of instances at one depth: whether lengths may lie on half units, how many evaluations in one another are
    left, and the counts."""

    __slots__ = ("half", "evaluations", "counts")
    half: bool
    evaluations: int
    counts: Counts


def at_next_depth(evaluator: Evaluator) -> Evaluator:
    """That of what is one evaluation deeper."""
    return Evaluator(evaluator.half, evaluator.evaluations - 1, evaluator.counts)


def expression_context(evaluator: Evaluator, here: Context) -> ExpressionContext:
    """Where an expression of an instance stands."""
    return ExpressionContext(evaluator.evaluations, here.calls_left, here.env, here.bindings, evaluator.counts)


def assigned_value(evaluator: Evaluator, here: Context, assignment: SourceAssignment) -> Val:
    """The value of an assignment: its statement is one evaluation deeper, and its expression one more."""
    if evaluator.evaluations == 0:
        raise Fault("TooDeep", assignment.at)
    return value_at_next_depth(expression_context(at_next_depth(evaluator), here), True, assignment.value)


def each_assignment(evaluator: Evaluator, here: Context, statements: StatementTerms) -> Context:
    """The scope with its assignments, from the first on: a special name goes among the dynamic bindings, a variable into the
    scope, which is a new one."""
    for assignment in assignments_of(statements):
        value = assigned_value(evaluator, here, assignment)
        if assignment.special:
            here = with_bindings(here, {assignment.name: value})
        else:
            here.env.variables[assignment.name] = value
    return here


def each_member(evaluator: Evaluator, here: Context, instances: Sequence[InstanceTerm]) -> MemberDesigns:
    """What instances give as members, in order; those that have no geometry are no members."""
    members = MemberDesigns()
    for instance in instances:
        result = design_within(evaluator, here, instance)
        members.add(result, not has_no_geometry(here.env, instance.core))
    return members


def each_in_scope(evaluator: Evaluator, here: Context, statements: StatementTerms) -> MemberDesigns:
    """A body in its scope: its assignments, then the instances that are evaluated."""
    there = each_assignment(evaluator, here, statements)
    return each_member(evaluator, there, evaluated_instances(statements))


@once
def evaluates_nothing(statements: StatementTerms) -> bool:
    """A body in which nothing is evaluated. That it gives nothing is told at once: loops may have 100,000 turns."""
    return not assignments_of(statements) and not evaluated_instances(statements)


def body_design(evaluator: Evaluator, op: str, here: Context, body: BodyTerm) -> InstanceDesign:
    """A body's members in a new scope inside where it stands, joined by an operation."""
    if evaluates_nothing(body.statements):
        return no_design
    scope = entered_scope(body.statements, None, here.env)
    return joined_members(op, each_in_scope(evaluator, inside_scope(here, scope), body.statements))


def in_loop(here: Context, name: bytes, value: Val) -> Context:
    """A variable of a loop, in a scope of its own."""
    return inside_scope(here, InnerScope({name: value}, nothing_defined, nothing_defined, None, here.env))


def each_iteration(evaluator: Evaluator, loop: ForTerm, at: int, here: Context, members: MemberDesigns) -> None:
    """The iterations of a loop, from its variable of this number on: one for each choice of a value for every variable, the
    first one slowest. A step of a variable that gave no member counts one turn when it ends."""
    if at == len(loop.binders):
        turn(loop.at, evaluator.counts)
        members.add(body_design(evaluator, "union", here, loop.body))
        return
    binder = loop.binders[at]
    items = iterated_values(value_at_next_depth(expression_context(evaluator, here), True, binder.values))
    if items is None:
        raise Fault("TypeMismatch", loop.at)
    for item in items:
        before = len(members.designs)
        each_iteration(evaluator, loop, at + 1, in_loop(here, binder.name, item), members)
        if len(members.designs) == before:
            turn(loop.at, evaluator.counts)


def loop_design(evaluator: Evaluator, here: Context, loop: ForTerm) -> InstanceDesign:
    """The iterations of a loop, joined by an operation."""
    members = MemberDesigns()
    each_iteration(evaluator, loop, 0, here, members)
    return joined_members("union" if loop.word == "for" else "intersection", members)


def leaf_design(counts: Counts, at: Place, mesh: Mesh | Hull) -> DesignTree:
    """One leaf more."""
    if counts.leaves >= most_leaves:
        raise Fault("TooManyParts", at)
    counts.leaves += 1
    return ALeaf(mesh, [], at)


def unless_refused(verdict: str | None, at: Place) -> None:
    """What a module's own checks say, at its name."""
    if verdict is not None:
        raise Fault(verdict, at)


def hull_design(evaluator: Evaluator, at: Place, result: InstanceDesign) -> InstanceDesign:
    """The hull of what children give, which counts as one leaf more behind theirs; where their design is empty, there is no
    hull."""
    if result.design is empty:
        return result
    unless_refused(hull_fault(result.design), at)
    return InstanceDesign(leaf_design(evaluator.counts, at, hull_of(points_of(result.design))), result.root)


def children_count(caller: Env, children: StatementTerms) -> int:
    """The number of children of a call with this body."""
    return len(children_in(entered_scope(children, None, caller), children))


def module_scope(scope: Env, module: SourceModule, values: Sequence[Val], call: Activation) -> Env:
    """The scope of a module's body."""
    variables = {**dict(zip(parameter_names(module.params), values)), b"$children": children_count(call.caller, call.children)}
    statements = module.body.statements
    return InnerScope(variables, functions_standing_in(statements), modules_standing_in(statements), call, scope)


def module_design(evaluator: Evaluator, here: Context, call: ModuleCallTerm, found: tuple[SourceModule, Env],
                  given: Arguments) -> InstanceDesign:
    """A module of the source, one call deeper: its special arguments stand among the dynamic bindings, its defaults are
    evaluated in the scope of its definition, and then comes its body."""
    module, scope = found
    calls = one_call_fewer(here.calls_left, call.at)
    turn(call.at, evaluator.counts)
    there = with_bindings(with_calls_left(here, calls), given.dynamic)
    values = each_parameter(expression_context(evaluator, inside_scope(there, scope)), module.params, given.bound)
    if evaluates_nothing(module.body.statements):
        return no_design
    inside = module_scope(scope, module, values, Activation(call.body.statements, here.env))
    return joined_members("union", each_in_scope(evaluator, inside_scope(there, inside), module.body.statements))


def each_echo_argument(here: ExpressionContext, args: Sequence[ArgTerm]) -> Arguments:
    """The arguments of `echo`, in order: a name may come twice, a special name may not."""
    given = no_arguments_of(0)
    for arg in args:
        if isinstance(arg, SpecialArgTerm):
            target = destination_of([], 0, given, arg)
            if target is None:
                raise Fault("BadArgument", arg.at)
            with_argument(given, target, value_at_next_depth(here, True, arg.value))
        else:
            value_at_next_depth(here, True, arg.value)
    return given


def arguments_for(name: bytes, here: ExpressionContext, args: Sequence[ArgTerm]) -> Arguments:
    """The arguments of a built-in module."""
    return each_echo_argument(here, args) if name == b"echo" else each_argument(here, parameters_of[name], args)


def children_design(evaluator: Evaluator, here: Context, chosen: list[int] | RangeVal | None) -> InstanceDesign:
    """The chosen children of the enclosing call, in a new scope inside its caller's, with the assignments of their body.
    Where all are wanted, the body is evaluated as any other one, with its `echo`s and `assert`s."""
    call = activation_in(here.env)
    if call is None or evaluates_nothing(call.children):
        return no_design
    there = inside_scope(here, entered_scope(call.children, None, call.caller))
    there = each_assignment(evaluator, there, call.children)
    instances = (evaluated_instances(call.children) if chosen is None
                 else chosen_among(children_in(there.env, call.children), chosen))
    return joined_members("union", each_member(evaluator, there, instances))


def counted_children(evaluator: Evaluator, here: Context, at: Place, chosen: list[int] | RangeVal | None) -> InstanceDesign:
    """A call of `children`, one call deeper. It counts a turn when it ends where nothing was counted and no leaf was evaluated
    since it began."""
    before = evaluator.counts.turns, evaluator.counts.leaves
    calls = one_call_fewer(here.calls_left, at)
    result = children_design(evaluator, with_calls_left(here, calls), chosen)
    if (evaluator.counts.turns, evaluator.counts.leaves) == before:
        turn(at, evaluator.counts)
    return result


def flat_design(evaluator: Evaluator, here: Context, at: Place, call: SquareCall | PolygonCall | CircleCall) -> InstanceDesign:
    """A shape in the plane, which stands inside an extrusion."""
    if here.inside is None:
        raise Fault("WrongDimension", at)
    unless_refused(flat_verdict(evaluator.half, call), at)
    mesh = extrusion_of(evaluator.half, here.inside.center, flat_points(evaluator.half, call), here.inside.height)
    return InstanceDesign(leaf_design(evaluator.counts, at, mesh), None)


def solid_design(evaluator: Evaluator, at: Place, call: CubeCall | PolyhedronCall | CylinderCall) -> InstanceDesign:
    unless_refused(solid_verdict(evaluator.half, call), at)
    return InstanceDesign(leaf_design(evaluator.counts, at, solid_mesh(evaluator.half, call)), None)


def effect_design(evaluator: Evaluator, here: Context, at: Place, effect: EffectCall, body: BodyTerm) -> InstanceDesign:
    """What a call of a built-in module gives, by what its arguments ask for."""
    if isinstance(effect, ASolid):
        return solid_design(evaluator, at, effect.solid)
    if isinstance(effect, AFlat):
        return flat_design(evaluator, here, at, effect.flat)
    if isinstance(effect, AMove):
        result = body_design(evaluator, "union", here, body)
        return InstanceDesign(moved_design_tree(effect.steps, result.design), result.root)
    if isinstance(effect, AJoin):
        return body_design(evaluator, effect.op, here, body)
    if isinstance(effect, AHull):
        return hull_design(evaluator, at, body_design(evaluator, "union", here, body))
    if isinstance(effect, AnExtrusion):
        unless_refused(size_fault(evaluator.half, effect.center, [effect.height]), at)
        return body_design(evaluator, "union", inside_extrusion(here, Extrusion(*effect)), body)
    if isinstance(effect, SomeChildren):
        return counted_children(evaluator, here, at, effect.chosen)
    assert isinstance(effect, NoGeometry)
    if not is_bare(body):
        raise Fault("NotInProfile", at)
    return no_design


def built_in_design(evaluator: Evaluator, here: Context, call: ModuleCallTerm) -> InstanceDesign:
    """A call of a built-in module."""
    if call.name not in parameters_of:
        raise Fault("NotInProfile" if call.name in is_left_out_module else "UnknownModule", call.at)
    given = arguments_for(call.name, expression_context(evaluator, here), call.args)
    there = with_bindings(here, given.dynamic)
    asked = Call(evaluator.half, here.inside is not None, there.bindings.get(b"fn"), given.bound)
    return effect_design(evaluator, there, call.at, outcome_of_answer(call.at, effect_of[call.name], asked), call.body)


def call_design(evaluator: Evaluator, here: Context, call: ModuleCallTerm) -> InstanceDesign:
    """A call of a module: the source's go before built-in ones."""
    found = visible_module(here.env, call.name)
    if found is None:
        return built_in_design(evaluator, here, call)
    given = each_argument(expression_context(evaluator, here), parameter_names(found[0].params), call.args)
    return module_design(evaluator, here, call, found, given)


def core_design(evaluator: Evaluator, here: Context, core: CoreTerm) -> InstanceDesign:
    """What an instance without its modifiers gives."""
    if isinstance(core, ModuleCallTerm):
        return call_design(evaluator, here, core)
    if isinstance(core, ForTerm):
        return loop_design(evaluator, here, core)
    assert isinstance(core, IfTerm)
    chosen = core.body if truth_of(value_at_next_depth(expression_context(evaluator, here), True, core.test)) else core.other
    return no_design if chosen is None else body_design(evaluator, "union", here, chosen)


def instance_design(evaluator: Evaluator, here: Context, instance: InstanceTerm) -> InstanceDesign:
    """An instance: of modifiers `!` in one another the outermost one counts. What is marked is the root, and a member of what
    stands around it as if there were no mark."""
    if not has_modifier(instance, "!"):
        return core_design(evaluator, here, instance.core)
    if here.inside is not None:
        raise Fault("WrongDimension", instance.core.at)
    result = core_design(evaluator, inside_root(here), instance.core)
    return result if here.under_root else InstanceDesign(result.design, result.design)


def design_within(evaluator: Evaluator, here: Context, instance: InstanceTerm) -> InstanceDesign:
    """An instance one evaluation deeper."""
    if evaluator.evaluations == 0:
        raise Fault("TooDeep", instance.at)
    return instance_design(at_next_depth(evaluator), here, instance)


def program_context(statements: StatementTerms) -> Context:
    """Where a program stands."""
    return Context(most_calls, entered_scope(statements, None, None), first_bindings, None, False)


def design_of(half: bool, statements: StatementTerms) -> DesignTree:
    """The design of a program: the first one marked `!`, or else all."""
    members = each_in_scope(Evaluator(half, most_evaluations, Counts()), program_context(statements), statements)
    return balanced_join("union", members.designs) if members.root is None else members.root
