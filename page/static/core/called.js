// How this program is called in a checkout. Where it is installed the server puts the name in its place that it has there.

export const CALLED = "./draw";
