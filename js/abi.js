/**
 * The calls of the library for C as WebAssembly has them: this file, memory.js and traced.js alone know its structs and
 * arguments (include/polyover.h). All sizes and addresses have 64 bits, and are BigInts in the calls.
 */

import { NotResolved } from "./errors.js";
import { Row, SIZE, STATUSES, check, suffixed } from "./held.js";
import { Memory } from "./memory.js";
import { BUILDS, LIMIT, LIMIT_32 } from "./names.js";
import { tracedOf } from "./traced.js";

/** Shapes that are asked again and again, of an arrangement and as they are given: the size of each, and its calls. */
const ARRANGED = {
  size: 6 * SIZE,
  prepare: "polyover_prepare",
  locate: "polyover_prepared_locate",
  free: "polyover_prepared_free",
};
const AS_GIVEN = {
  size: 7 * SIZE,
  prepare: "polyover_prepare_exact",
  locate: "polyover_exact_locate",
  free: "polyover_exact_free",
};
const GRAPH = 4 * SIZE;

/** The calls, which are asked with groups of one kind. Rules, fill rules and solvers are numbers, places in lists. */
export class Library extends Memory {
  /** Whether the library is made of the proved module. */
  built() {
    return BUILDS[this.calls.polyover_built?.()] ?? "unknown";
  }

  overlay(asked, rule, fill, look) {
    return this.answer("polyover_overlay_result", asked, (held) => [rule, fill, this.options(held, look, asked.kind)]);
  }

  /** The same shapes, by contours that may touch themselves, with the filled sides of the step from each point on. */
  vectors(asked, rule, fill, look) {
    const how = { ...look, touching: false };
    return this.answer("polyover_vectors_result", asked, (held) => [rule, fill, this.options(held, how, asked.kind)]);
  }

  /** Edges with the given steps on which they lie: by a rule, or all of them. */
  trace(asked, rule, fill, solver, isClosed) {
    return this.hold((held) => tracedOf(this, held, asked, [rule, fill, solver], isClosed));
  }

  hierarchy(asked, rule, fill, look) {
    return this.answer("polyover_hierarchy_result", asked, (held) => [
      rule,
      fill,
      this.options(held, look, asked.kind),
    ]);
  }

  simplify(asked, fill, look) {
    return this.answer("polyover_simplify_result", asked, (held) => [fill, this.options(held, look, asked.kind)]);
  }

  slice(asked, fill, look) {
    return look.clockwise || look.minimumArea > 0n
      ? this.answer("polyover_slice_custom_result", asked, (held) => [fill, this.sliceOptions(held, look, asked.kind)])
      : this.answer("polyover_slice_result", asked, () => [fill, look.solver]);
  }

  /** The tiles of a grid whose cells have these sides, from 1 on. (A wider cell than the range has the same lines.) */
  tiles(asked, fill, solver, sides, words) {
    const least = (side, limit) => (side < limit ? side : limit);
    const isNarrow = asked.kind === Int32Array;
    const behind = sides.map((side) => (isNarrow ? Number(least(side, BigInt(LIMIT_32))) : least(side, LIMIT)));
    return this.answer("polyover_tiles_result", asked, () => [fill, solver], behind, words);
  }

  clip(asked, fill, how) {
    return this.answer("polyover_clip_result", asked, (held) => [fill, this.clipOptions(held, how)]);
  }

  edges(asked, fill, solver) {
    return this.answer("polyover_edges_result", asked, () => [fill, solver]);
  }

  /** The bits of the relations that hold of the contours as they are given: nothing is rounded. */
  relate(asked, fill) {
    return this.told(asked, 0, suffixed("polyover_relate_exact", asked.kind), [fill]);
  }

  /** Whether the relation at a place in RELATIONS holds of them. */
  relateOne(asked, at, fill) {
    return this.told(asked, 0, suffixed("polyover_relate_one_exact", asked.kind), [1 << at, fill]) === 1;
  }

  /** The bits of those that hold of the arrangement, of coordinates of 64 bits times 2 to the power. */
  relateArranged(asked, fill, solver, power) {
    return this.told(asked, power, "polyover_relate", [fill, solver]);
  }

  /** Whether one of them holds of it. */
  relateOneArranged(asked, at, fill, solver, power) {
    return this.told(asked, power, "polyover_relate_one", [1 << at, fill, solver]) === 1;
  }

  /** The number that a call tells of relations; its first arguments are given. */
  told({ groups, grid }, power, name, given) {
    return this.hold((held) => {
      const both = groups.map((group) => this.contours(held, group, grid, power));
      const found = new Row(held, Uint32Array, 1);
      check(this.calls[name](...given, ...both, BigInt(found.at)));
      return found.view()[0];
    });
  }

  /** The greatest distance of a coordinate of 64 bits from 0. */
  extent({ groups, grid }) {
    const found = groups.map((group) =>
      this.hold((held) => BigInt.asUintN(64, this.calls.extent(...this.numbers(held, group, grid).arguments))),
    );
    return found.reduce((most, each) => (each > most ? each : most), 0n);
  }

  isResolved({ groups: [shape], kind, grid }) {
    return this.hold((held) => {
      const status = this.calls[suffixed("polyover_resolved", kind)](this.contours(held, shape, grid));
      if (STATUSES[status] !== "NOT_RESOLVED") {
        check(status);
      }
      return STATUSES[status] === "OK";
    });
  }

  /** A number for each point: its place in LOCATIONS. */
  locate({ groups: [shape, points], kind, grid }) {
    return this.hold((held) => {
      const contours = this.contours(held, shape, grid);
      const numbers = this.numbers(held, points, grid);
      const found = new Row(held, Uint8Array, numbers.count / 2);
      const unresolved = new Row(held, BigUint64Array, 1);
      const given = [contours, ...numbers.arguments, ...found.arguments, BigInt(unresolved.at)];
      const status = this.calls[suffixed("polyover_locate", kind)](...given);
      if (STATUSES[status] === "NOT_RESOLVED") {
        throw new NotResolved(Number(unresolved.view()[0]) + 1);
      }
      check(status);
      return found.view().slice();
    });
  }

  /** A prepared shape, of coordinates of 64 bits; `freePrepared` gives its memory back. */
  prepare({ groups: [shape], grid }, fill, solver) {
    return this.prepared(ARRANGED, shape, grid, [fill, solver]);
  }

  /** The same of contours as they are given: nothing is rounded. */
  prepareExact({ groups: [shape], grid }, fill) {
    return this.prepared(AS_GIVEN, shape, grid, [fill]);
  }

  /** A shape that a call prepares: its address, and its calls; the first arguments of the call are given. */
  prepared(calls, shape, grid, given) {
    return this.hold((held) => {
      const contours = this.contours(held, shape, grid);
      return { at: this.kept(calls.size, calls.prepare, [...given, contours]), calls };
    });
  }

  /** A number for each point of 64 bits, which tells where it lies in a prepared shape: its place in LOCATIONS. */
  preparedLocate({ at, calls }, { groups: [points], grid }) {
    return this.hold((held) => {
      const numbers = this.numbers(held, points, grid);
      const found = new Row(held, Uint8Array, numbers.count / 2);
      check(this.calls[calls.locate](at, ...numbers.arguments, ...found.arguments));
      return found.view().slice();
    });
  }

  /** The same of contours as they are given, for these points alone. */
  regionLocate({ groups: [shape, points], grid }, fill) {
    const prepared = this.prepareExact({ groups: [shape], grid }, fill);
    try {
      return this.preparedLocate(prepared, { groups: [points], grid });
    } finally {
      this.freePrepared(prepared);
    }
  }

  /** The address of a graph of two groups; `freeGraph` gives its memory back. */
  arrange({ groups, kind, grid }, fill, solver) {
    return this.hold((held) => {
      const both = groups.map((group) => this.contours(held, group, grid));
      // (points on one line are dropped, as by each other call)
      return Number(this.kept(GRAPH, suffixed("polyover_arrange", kind), [fill, solver, 0, ...both]));
    });
  }

  /** The arrays that a question of a graph is answered; its form has the kind of the graph's coordinates. */
  graphOverlay(at, form, rule, look) {
    return this.ofGraph("overlay", at, form, (held) => [rule, this.options(held, look, form.kind)]);
  }

  graphHierarchy(at, form, rule, look) {
    return this.ofGraph("hierarchy", at, form, (held) => [rule, this.options(held, look, form.kind)]);
  }

  graphEdges(at, form) {
    return this.ofGraph("edges", at, form, () => []);
  }

  ofGraph(name, at, form, behind) {
    return this.hold((held) =>
      this.result(held, `polyover_graph_${name}_result`, [BigInt(at), ...behind(held)], form),
    );
  }

  /** Gives the memory of a graph back. */
  freeGraph(at, kind) {
    this.calls[suffixed("polyover_graph_free", kind)](BigInt(at));
    this.calls.free(BigInt(at));
  }

  /** Gives the memory of a prepared shape back. */
  freePrepared({ at, calls }) {
    this.calls[calls.free](at);
    this.calls.free(at);
  }
}
