/** What the page takes of d3. */

declare module "d3-selection" {
  /** Elements E, each with a datum D. */
  export interface Selection<E extends Element, D = undefined> {
    append<K extends keyof SVGElementTagNameMap>(name: K): Selection<SVGElementTagNameMap[K], D>;
    attr(name: string, value: string | number | ((datum: D) => string | number)): this;
    style(name: string, value: string | null): this;
    text(value: string | ((datum: D) => string)): this;
    on(name: string, listener: ((...words: (Event | D)[]) => void) | null): this;
    call<W extends unknown[]>(act: (selection: Selection<E, D>, ...words: W) => void, ...words: W): this;
    filter(isTaken: (datum: D) => boolean): this;
    selectAll(query: string): Selection<Element>;
    data<T>(data: T[]): Selection<E, T>;
    enter(): Selection<E, D>;
    remove(): this;
    node(): E;
  }

  export function select<E extends Element>(node: E): Selection<E>;
}

declare module "d3-scale" {
  /** A stretch of numbers, and the stretch of the picture where it is drawn. */
  export interface Scale {
    (value: number): number;
    invert(value: number): number;
    domain(): [number, number];
    domain(ends: number[]): this;
    range(): [number, number];
    range(ends: number[]): this;
  }

  export function scaleLinear(): Scale;
  export function scaleSymlog(): Scale;
}

declare module "d3-axis" {
  import { Scale } from "d3-scale";
  import { Selection } from "d3-selection";

  export interface Axis {
    (group: Selection<SVGGElement>): void;
    ticks(count: number): this;
    tickValues(values: number[]): this;
    tickFormat(format: (value: number) => string): this;
  }

  export function axisBottom(scale: Scale): Axis;
  export function axisLeft(scale: Scale): Axis;
}

declare module "d3-zoom" {
  import { Scale } from "d3-scale";
  import { Selection } from "d3-selection";

  export interface Transform {
    readonly k: number;
    translate(x: number, y: number): Transform;
    scale(k: number): Transform;
    rescaleX(scale: Scale): Scale;
  }

  /** An element that is zoomed, which keeps how. */
  export type Zoomed<E extends Element> = E & { readonly __zoom: Transform };

  export interface Zoom {
    (selection: Selection<SVGSVGElement>): void;
    transform(selection: Selection<SVGSVGElement>, transform: Transform): void;
    scaleBy(selection: Selection<SVGSVGElement>, factor: number): void;
    translateBy(selection: Selection<SVGSVGElement>, x: number, y: number): void;
    touchable(isTouchable: boolean): this;
    scaleExtent(extent: [number, number]): this;
    translateExtent(corners: [[number, number], [number, number]]): this;
    extent(corners: [[number, number], [number, number]]): this;
    on(name: "zoom", listener: () => void): this;
  }

  export function zoom(): Zoom;
  export const zoomIdentity: Transform;
}
