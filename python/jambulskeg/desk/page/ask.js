/* What the page asks of the desk. Paths are beside the page's own, so the token goes with them. */

/** An answer of the desk that is no success: `status`, and the tree with `error` and, of a table, its place. */
export class Refusal extends Error {
  constructor(status, tree) {
    super(tree.error || "The desk gave no answer.");
    this.status = status;
    this.tree = tree;
  }
}

async function answered(promise) {
  let response;
  try {
    response = await promise;
  } catch (problem) {
    throw new Refusal(0, {error: "The desk does not answer; was it closed?"});
  }
  const tree = await response.json().catch(() => ({}));
  if (!response.ok) { throw new Refusal(response.status, tree); }
  return tree;
}

export function get(path) {
  return answered(fetch("api/" + path));
}

export function post(path, tree) {
  return answered(fetch("api/" + path, {
    method: "POST", headers: {"Content-Type": "application/json"}, body: JSON.stringify(tree),
  }));
}
