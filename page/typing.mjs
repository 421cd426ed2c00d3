// The types of a program and its nodes, as docs/language.md has them: to find in the text what fc names by a kind of
// fault, or by the number of a node.

/** @typedef {import("./grammar.mjs").Expr} Expr */
/** @typedef {import("./grammar.mjs").Declaration} Declaration */
/** @typedef {import("./grammar.mjs").Local} Local */
/** @typedef {import("./grammar.mjs").Type} Type */
/** @typedef {Map<string, Type>} Scope */

const MOST_LEAVES = 8;
/** @type {Type} */
const INT = { local: "int", isField: false };
/** @type {Type} */
const BOOL = { local: "bool", isField: false };

/** A fault of types: its kind, and the offsets of what is at fault. */
export class Fault extends Error {
    /**
     * @param {string} kind
     * @param {number} from
     * @param {number} to
     */
    constructor(kind, from, to) {
        super(kind);
        this.kind = kind;
        this.from = from;
        this.to = to;
        this.number = 0;
    }
}

/**
 * @param {Local} one
 * @param {Local} other
 * @returns {boolean}
 */
function isSame(one, other) {
    if (typeof one === "string" || typeof other === "string") return one === other;
    return isSame(one.first, other.first) && isSame(one.second, other.second);
}

/**
 * @param {Type} one
 * @param {Type} other
 */
const isSameType = (one, other) => one.isField === other.isField && isSame(one.local, other.local);

/**
 * @param {Local} local
 * @returns {number}
 */
const leaves = (local) => typeof local === "string" ? 1 : leaves(local.first) + leaves(local.second);

/** Judges the declarations of a program one after the other. */
class Judge {
    constructor() {
        this.ceiling = 0;
        this.hasMetric = false;
        /** @type {Map<string, Declaration>} */
        this.inputs = new Map();
        /** @type {Map<string, Declaration>} */
        this.functions = new Map();
    }

    /** @param {Declaration} declaration */
    judge(declaration) {
        const { form, tokens } = declaration;
        /**
         * @param {string} kind
         * @param {import("./tokens.mjs").Token} [at]
         * @returns {never}
         */
        const wrong = (kind, at) => {
            throw new Fault(kind, (at ?? tokens[0]).from, (at ?? tokens[tokens.length - 1]).to);
        };
        if (form === "ceiling") {
            this.ceiling = declaration.bounds[0];
            if (this.ceiling === 0) wrong("range", tokens[1]);
        } else if (form === "input") {
            if (this.inputs.has(declaration.name)) wrong("twice", tokens[1]);
            this.range(declaration, wrong);
            this.inputs.set(declaration.name, declaration);
        } else if (form === "metric") {
            if (this.hasMetric) wrong("twice", tokens[0]);
            this.range(declaration, wrong);
            this.hasMetric = true;
        } else if (form === "def") this.define(declaration, wrong);
        else if (declaration.body && this.type(declaration.body, new Map()).isField) {
            throw new Fault("not-local", declaration.body.from, declaration.body.to);
        }
    }

    /**
     * @param {Declaration} declaration
     * @param {(kind: string) => never} wrong
     */
    range({ bounds: [low, high] }, wrong) {
        if (low > high || high > this.ceiling) wrong("range");
    }

    /**
     * @param {Declaration} declaration
     * @param {(kind: string, at?: import("./tokens.mjs").Token) => never} wrong
     */
    define(declaration, wrong) {
        const { name, parameters, result, body, tokens } = declaration;
        if (this.functions.has(name)) wrong("twice", tokens[1]);
        /** @type {Scope} */
        const scope = new Map();
        for (const parameter of parameters) {
            if (scope.has(parameter.name)) wrong("twice", parameter.at);
            if (leaves(parameter.type.local) > MOST_LEAVES) wrong("wide", parameter.at);
            scope.set(parameter.name, parameter.type);
        }
        if (!result || !body) return;
        if (leaves(result.local) > MOST_LEAVES) wrong("wide", tokens[1]);
        const found = this.type(body, scope);
        if (!isSameType(found, result)) throw new Fault("result", body.from, body.to);
        this.functions.set(name, declaration);
    }

    /**
     * The type of an expression; kids come from left to right, and before what they stand in.
     * @param {Expr} expr
     * @param {Scope} scope
     * @returns {Type}
     */
    type(expr, scope) {
        const { form, name, kids } = expr;
        /**
         * @param {string} kind
         * @param {Expr} at
         * @returns {never}
         */
        const wrong = (kind, at = expr) => {
            throw new Fault(kind, at.from, at.to);
        };
        switch (form) {
        case "number": return expr.value > this.ceiling ? wrong("literal") : INT;
        case "truth": return BOOL;
        case "uid": return INT;
        case "nbrLink": return { local: "int", isField: true };
        case "variable": return scope.get(name) ?? wrong("unknown");
        case "sense": {
            const declared = this.inputs.get(name) ?? wrong("unknown");
            return declared.bounds.length ? INT : BOOL;
        }
        case "nbr": {
            const found = this.type(kids[0], scope);
            return found.isField ? wrong("not-local", kids[0]) : { local: found.local, isField: true };
        }
        case "rep": case "share": return this.keeping(expr, scope, wrong);
        case "let": {
            const bound = this.type(kids[0], scope), found = this.type(kids[1], new Map(scope).set(name, bound));
            return scope.has(name) ? wrong("twice") : found;
        }
        }
        const found = kids.map((kid) => this.type(kid, scope));
        if (form === "if") return this.choice(kids, found, wrong);
        if (form === "call") return this.call(expr, found, wrong);
        const result = applied(name, found) ?? wrong("mismatch");
        return leaves(result.local) > MOST_LEAVES ? wrong("wide") : result;
    }

    /**
     * @param {Expr} expr
     * @param {Scope} scope
     * @param {(kind: string, at?: Expr) => never} wrong
     * @returns {Type}
     */
    keeping({ form, name, kids }, scope, wrong) {
        const first = this.type(kids[0], scope);
        const heard = form === "share" ? { local: first.local, isField: true } : first;
        const body = this.type(kids[1], new Map(scope).set(name, heard));
        if (first.isField) wrong("not-local", kids[0]);
        if (body.isField) wrong("not-local", kids[1]);
        if (!isSameType(first, body)) wrong("mismatch", kids[1]);
        return scope.has(name) ? wrong("twice") : first;
    }

    /**
     * @param {Expr[]} kids
     * @param {Type[]} found
     * @param {(kind: string, at?: Expr) => never} wrong
     * @returns {Type}
     */
    choice(kids, found, wrong) {
        const field = found.findIndex((type) => type.isField);
        if (field >= 0) wrong("not-local", kids[field]);
        if (!isSameType(found[0], BOOL)) wrong("mismatch", kids[0]);
        return isSameType(found[1], found[2]) ? found[1] : wrong("mismatch", kids[2]);
    }

    /**
     * @param {Expr} expr
     * @param {Type[]} found
     * @param {(kind: string, at?: Expr) => never} wrong
     * @returns {Type}
     */
    call({ name, kids }, found, wrong) {
        const { parameters, result } = this.functions.get(name) ?? wrong("unknown");
        if (found.length !== parameters.length) wrong("count");
        const other = parameters.findIndex(({ type }, at) => !isSameType(type, found[at]));
        return other >= 0 ? wrong("mismatch", kids[other]) : result ?? wrong("unknown");
    }
}

/**
 * @param {string} name
 * @param {Type[]} found
 * @returns {Type | null}
 */
function applied(name, found) {
    if (/Hood(Loc)?$/.test(name)) {
        const entry = { local: found[0].local, isField: false };
        if (!found[0].isField) return null;
        if (name.endsWith("Loc")) return isSameType(found[1], entry) ? entry : null;
        return entry.local === (name === "sumHood" ? "int" : "bool") ? entry : null;
    }
    const local = pointwise(name, found.map((type) => type.local));
    return local && { local, isField: found.some((type) => type.isField) };
}

/**
 * @param {string} name
 * @param {Local[]} found
 * @returns {Local | null}
 */
function pointwise(name, found) {
    const [one, other] = found;
    switch (name) {
    case "pair": return { first: one, second: other };
    case "fst": return typeof one === "string" ? null : one.first;
    case "snd": return typeof one === "string" ? null : one.second;
    case "mux": return one === "bool" && isSame(other, found[2]) ? other : null;
    case "min": case "max": return isSame(one, other) ? one : null;
    case "<": case "=": return isSame(one, other) ? "bool" : null;
    }
    const wanted = ["and", "or", "not"].includes(name) ? "bool" : "int";
    return found.every((local) => local === wanted) ? wanted : null;
}

/**
 * The first fault of types, with the number of its declaration, or null.
 * @param {Declaration[]} program
 */
export function firstFault(program) {
    const judge = new Judge();
    for (const declaration of program) {
        try {
            judge.judge(declaration);
        } catch (fault) {
            if (!(fault instanceof Fault)) throw fault;
            fault.number = declaration.number;
            return fault;
        }
    }
    return null;
}

/**
 * A node of the unfolded `main`: its form, the expression from which it comes, and the calls that lead there, the
 * outermost first. A call is a `let` for each argument.
 * @typedef {{form: string, expr: Expr, calls: Expr[]}} Node
 */

/**
 * The nodes of a typed program in preorder, so that a node's number is its place.
 * @param {Declaration[]} program
 * @param {number} most
 * @returns {Node[]}
 */
export function nodesOf(program, most = 2048) {
    const functions = new Map(program.filter(({ form }) => form === "def").map((one) => [one.name, one]));
    /** @type {Node[]} */
    const nodes = [];
    /**
     * @param {Expr} expr
     * @param {Expr[]} calls
     */
    function add(expr, calls) {
        if (nodes.length > most) return;
        if (expr.form !== "call") {
            nodes.push({ form: expr.form, expr, calls });
            expr.kids.forEach((kid) => add(kid, calls));
            return;
        }
        for (const kid of expr.kids) {
            nodes.push({ form: "let", expr, calls });
            add(kid, calls);
        }
        const body = functions.get(expr.name)?.body;
        if (body) add(body, [...calls, expr]);
    }
    const { body } = program[program.length - 1];
    if (body) add(body, []);
    return nodes;
}
