// Lines that end a tune.

export const BLANK = /^[ \t]*$/;
