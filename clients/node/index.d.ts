/** Options of a question. With `loose` texts are read as node-semver reads them loosely. */
export interface Options {
  loose?: boolean | undefined;
  includePrerelease?: boolean | undefined;
}

/** Options of `coerce`: with `rtl` the version is looked for from the right. */
export interface CoerceOptions extends Options {
  rtl?: boolean | undefined;
}

export type ReleaseType = "major" | "premajor" | "minor" | "preminor" | "patch" | "prepatch" | "prerelease";
/** What a new pre-release begins to count with; `false` for no number. */
export type IdentifierBase = "0" | "1" | 0 | 1 | false;
export type Operator = "===" | "!==" | "" | "=" | "==" | "!=" | ">" | ">=" | "<" | "<=";
/** `true` stands for the option `loose`. */
type Given = boolean | Options | undefined;
type Order = -1 | 0 | 1;

/** A version. */
export class SemVer {
  /** Throws a TypeError where the text is no version. */
  constructor(version: string | SemVer, options?: Given);
  raw: string;
  readonly loose: boolean;
  readonly includePrerelease: boolean;
  readonly options: Options;
  major: number;
  minor: number;
  patch: number;
  /** The version without its build metadata. */
  version: string;
  prerelease: ReadonlyArray<string | number>;
  build: ReadonlyArray<string>;
  /** Makes `version` anew from the numbers and the pre-release, and returns it. */
  format(): string;
  toString(): string;
  compare(other: string | SemVer): Order;
  compareMain(other: string | SemVer): Order;
  comparePre(other: string | SemVer): Order;
  compareBuild(other: string | SemVer): Order;
  /** Changes this version to the next one. */
  inc(release: ReleaseType, identifier?: string, base?: IdentifierBase): this;
}

/** A sign and a version, or the empty text, which stands for any version. */
export class Comparator {
  /** The `semver` of a comparator of the empty text. */
  static readonly ANY: symbol;
  /** Throws a TypeError where the text is no comparator. */
  constructor(comparator: string | Comparator, options?: Given);
  readonly loose: boolean;
  readonly options: Options;
  readonly operator: "" | "<" | "<=" | ">" | ">=";
  readonly semver: SemVer | symbol;
  /** The comparator as a text. */
  readonly value: string;
  toString(): string;
  /** Whether the version stands to that of the comparator as the sign says. Pre-releases are no others. */
  test(version: string | SemVer): boolean;
  /** Whether some version satisfies both, as ranges. */
  intersects(comparator: Comparator, options?: Given): boolean;
}

/** A range. */
export class Range {
  /** Throws a TypeError where the text is no range. */
  constructor(range: string | Range | Comparator, options?: Given);
  readonly raw: string;
  readonly loose: boolean;
  readonly includePrerelease: boolean;
  readonly options: Options;
  /** The range in its normal form. */
  readonly range: string;
  /** The comparators of each alternative of the normal form. */
  readonly set: ReadonlyArray<ReadonlyArray<Comparator>>;
  format(): string;
  toString(): string;
  test(version: string | SemVer): boolean;
  /** Whether some version satisfies both. */
  intersects(range: Range, options?: Given): boolean;
}

export const RELEASE_TYPES: ReleaseType[];
export const SEMVER_SPEC_VERSION: "2.0.0";

export function parse(version: string | SemVer | null | undefined, options?: Given, throws?: false): SemVer | null;
export function parse(version: string | SemVer | null | undefined, options: Given, throws: true): SemVer;
export function valid(version: string | SemVer | null | undefined, options?: Given): string | null;
export function clean(version: string, options?: Given): string | null;
export function coerce(version: string | number | SemVer | null | undefined, options?: CoerceOptions): SemVer | null;
export function inc(version: string | SemVer, release: ReleaseType, options?: Given, identifier?: string, base?: IdentifierBase): string | null;
export function inc(version: string | SemVer, release: ReleaseType, identifier?: string, base?: IdentifierBase): string | null;
export function diff(one: string | SemVer, two: string | SemVer): ReleaseType | null;
export function major(version: string | SemVer, options?: Given): number;
export function minor(version: string | SemVer, options?: Given): number;
export function patch(version: string | SemVer, options?: Given): number;
export function prerelease(version: string | SemVer, options?: Given): ReadonlyArray<string | number> | null;

export function compare(one: string | SemVer, two: string | SemVer, options?: Given): Order;
export function rcompare(one: string | SemVer, two: string | SemVer, options?: Given): Order;
export function compareBuild(one: string | SemVer, two: string | SemVer, options?: Given): Order;
/** The same as `compare` with the option `loose`. */
export function compareLoose(one: string | SemVer, two: string | SemVer): Order;
export function compareIdentifiers(one: string | number, two: string | number): Order;
export function rcompareIdentifiers(one: string | number, two: string | number): Order;
export function gt(one: string | SemVer, two: string | SemVer, options?: Given): boolean;
export function lt(one: string | SemVer, two: string | SemVer, options?: Given): boolean;
export function eq(one: string | SemVer, two: string | SemVer, options?: Given): boolean;
export function neq(one: string | SemVer, two: string | SemVer, options?: Given): boolean;
export function gte(one: string | SemVer, two: string | SemVer, options?: Given): boolean;
export function lte(one: string | SemVer, two: string | SemVer, options?: Given): boolean;
export function cmp(one: string | SemVer, operator: Operator, two: string | SemVer, options?: Given): boolean;
/** Sorts the list itself, with builds where versions are equal. */
export function sort<T extends string | SemVer>(versions: T[], options?: Given): T[];
export function rsort<T extends string | SemVer>(versions: T[], options?: Given): T[];

export function satisfies(version: string | SemVer, range: string | Range, options?: Given): boolean;
export function validRange(range: string | Range | null | undefined, options?: Given): string | null;
export function maxSatisfying<T extends string | SemVer>(versions: readonly T[], range: string | Range, options?: Given): T | null;
export function minSatisfying<T extends string | SemVer>(versions: readonly T[], range: string | Range, options?: Given): T | null;
export function minVersion(range: string | Range, options?: Given): SemVer | null;
export function outside(version: string | SemVer, range: string | Range, side: "<" | ">", options?: Given): boolean;
export function gtr(version: string | SemVer, range: string | Range, options?: Given): boolean;
export function ltr(version: string | SemVer, range: string | Range, options?: Given): boolean;
export function intersects(one: string | Range, two: string | Range, options?: Given): boolean;
export function subset(sub: string | Range, range: string | Range, options?: Given): boolean;
export function simplifyRange(versions: readonly (string | SemVer)[], range: string | Range, options?: Given): string | Range;
export function toComparators(range: string | Range, options?: Given): string[][];

/** The strict functions: each takes strings alone, and throws where a text is rejected. */
export interface Strict {
  compare(version: string, other: string): Order;
  satisfies(version: string, range: string, options?: { includePrerelease?: boolean }): boolean;
  inc(version: string, word: string, identifier?: string): string;
  /** What both ranges accept, or null. */
  intersect(range: string, other: string): string | null;
  /** What the first range accepts and the second does not, or null. */
  subtract(range: string, other: string): string | null;
  minVersion(range: string): string | null;
  maxSatisfying(versions: readonly string[], range: string): string | null;
}
/** The strict functions over the addon at a path, which is the one beside this file unless it is given. */
export function load(path?: string): Strict;
/** The version of this package. */
export const version: string;
