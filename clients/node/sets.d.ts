/** A range of node-semver, of this package, or of a text. */
export type AnyRange =
  | string
  | { readonly range: string; readonly set: readonly unknown[]; readonly options?: object }
  | { readonly value: string; readonly options?: object };
/** A version of node-semver, of this package, or of a text. */
export type AnyVersion = string | { readonly version: string };

/** How a range that is a text is read. */
export interface Options {
  includePrerelease?: boolean | undefined;
}

/** Whether every version that satisfies the first range satisfies the second. */
export function subset(sub: AnyRange, range: AnyRange, options?: Options): boolean;
/** Whether some version satisfies both ranges. */
export function intersects(one: AnyRange, two: AnyRange, options?: Options): boolean;
/** The smallest version that satisfies a range, or null where none does. */
export function minVersion(range: AnyRange, options?: Options): string | null;
/** A range that accepts what either accepts. */
export function union(one: AnyRange, two: AnyRange, options?: Options): string;
/** The intervals that both ranges have, as a range, or null where there are none. */
export function intersect(one: AnyRange, two: AnyRange, options?: Options): string | null;
/** The intervals of the first range without those of the second, as a range, or null. */
export function difference(one: AnyRange, two: AnyRange, options?: Options): string | null;

/** Why a range does not accept a version. */
export interface Reason {
  /** As `a digit is expected`, or `above the range`. */
  reason: string;
  /** The text that it is about: the range, or the version. */
  text: string;
  /** The part of the text that it is about. Where something is missing the part is empty. */
  start: number;
  end: number;
}
/** Null where the range accepts the version. */
export function why(version: AnyVersion, range: AnyRange, options?: Options): Reason | null;
