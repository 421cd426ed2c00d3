// The grammar of programs: a declaration at a time, as docs/language.md has it. It is read here only to show a place in
// the text; what is right and what is wrong is fc's to say.
import { piecesOf } from "./tokens.mjs";

/** @typedef {import("./tokens.mjs").Token} Token */
/**
 * A local type, and whether it is a field of it.
 * @typedef {"int" | "bool" | LocalPair} Local
 * @typedef {{first: Local, second: Local}} LocalPair
 * @typedef {{local: Local, isField: boolean}} Type
 */
/**
 * An expression: its form, its offsets in the text, and its parts. `name` is a variable, input, function, bound name
 * or builtin.
 * @typedef {{form: string, name: string, from: number, to: number, kids: Expr[], value: number, at: Token}} Expr
 */
/**
 * A declaration: its form (language, ceiling, input, metric, def or main), its number from 1, and what it declares.
 * @typedef {{
 *   form: string, number: number, tokens: Token[], name: string, bounds: number[],
 *   parameters: {name: string, type: Type, at: Token}[], result?: Type, body?: Expr,
 * }} Declaration
 */

const LEVELS = [["or"], ["and"], ["<", "="], ["+", "-"], ["*"]];
const COMPARISON = 2;
/** @type {Record<string, number>} */
const ARGUMENTS = {
    fst: 1, snd: 1, sumHood: 1, anyHood: 1, allHood: 1, min: 2, max: 2, minHoodLoc: 2, maxHoodLoc: 2, mux: 3, rise: 3,
};
const MOST_NUMBER = 1000000;

/** A token that no form has at its place. */
export class Stuck extends Error {
    /** @param {Token | null} at the token, or null at the end of the text */
    constructor(at) {
        super("stuck");
        this.at = at;
    }
}

/** Reads the tokens of one declaration from the front. */
class Reader {
    /**
     * @param {Token[]} tokens
     * @param {boolean} isSecond whether the text is of language 2
     */
    constructor(tokens, isSecond) {
        this.tokens = tokens;
        this.isSecond = isSecond;
        this.place = 0;
    }

    get next() {
        return this.tokens[this.place] ?? null;
    }

    /**
     * Whether the next token has this text.
     * @param {string} text
     */
    sees(text) {
        return this.next !== null && this.next.text === text;
    }

    /** @returns {never} */
    stuck() {
        throw new Stuck(this.next);
    }

    /**
     * Takes the next token, which has this text or is of this kind.
     * @param {string} text
     * @returns {Token}
     */
    take(text) {
        const found = this.next;
        if (found === null || (found.text !== text && found.kind !== text)) return this.stuck();
        this.place++;
        return found;
    }

    number() {
        const token = this.next;
        const value = token?.kind === "number" ? Number(token.text) : MOST_NUMBER + 1;
        if (value > MOST_NUMBER) this.stuck();
        this.place++;
        return value;
    }

    name() {
        return this.take("name");
    }

    /**
     * Several parts with commas between them.
     * @template T
     * @param {() => T} part
     * @returns {T[]}
     */
    list(part) {
        if (this.sees(")")) return [];
        const found = [part()];
        while (this.sees(",")) {
            this.take(",");
            found.push(part());
        }
        return found;
    }

    /** @returns {Type} */
    type() {
        const isField = this.sees("field");
        if (isField) this.take("field");
        return { local: this.local(), isField };
    }

    /** @returns {Local} */
    local() {
        if (this.sees("int") || this.sees("bool")) return /** @type {"int" | "bool"} */ (this.take("word").text);
        this.take("(");
        const first = this.local();
        this.take(",");
        const second = this.local();
        this.take(")");
        return { first, second };
    }

    /**
     * An expression that begins at a token and ends with the last one taken.
     * @param {string} form
     * @param {Token} at
     * @param {Expr[]} kids
     * @param {string} name
     * @returns {Expr}
     */
    made(form, at, kids = [], name = "", from = at.from) {
        return { form, name, from, to: this.tokens[this.place - 1].to, kids, value: 0, at };
    }

    /** @returns {Expr} */
    expr() {
        if (!this.sees("let")) return this.operators(0);
        const word = this.take("let"), name = this.name();
        this.take("=");
        const bound = this.expr();
        this.take("in");
        const body = this.expr();
        return this.made("let", word, [bound, body], name.text);
    }

    /**
     * @param {number} level
     * @returns {Expr}
     */
    operators(level) {
        if (level === LEVELS.length) return this.unary();
        let left = this.operators(level + 1);
        while (this.next !== null && LEVELS[level].includes(this.next.text)) {
            const mark = this.take(this.next.text), right = this.operators(level + 1);
            left = this.made("apply", mark, [left, right], mark.text, left.from);
            if (level === COMPARISON) break;
        }
        return left;
    }

    /** @returns {Expr} */
    unary() {
        if (!this.sees("not")) return this.atom();
        const word = this.take("not"), part = this.unary();
        return this.made("apply", word, [part], "not");
    }

    /** @returns {Expr} */
    atom() {
        const token = this.next;
        if (token === null) return this.stuck();
        if (token.kind === "number") {
            const value = this.number();
            return { ...this.made("number", token), value };
        }
        if (token.kind === "name") return this.named(token);
        if (token.text === "(") return this.brackets(token);
        if (token.kind !== "word" || (token.text === "share" || token.text === "rise") && !this.isSecond) this.stuck();
        return this.worded(token);
    }

    /**
     * @param {Token} token
     * @returns {Expr}
     */
    named(token) {
        this.name();
        if (!this.sees("(")) return this.made("variable", token, [], token.text);
        this.take("(");
        const kids = this.list(() => this.expr());
        this.take(")");
        return this.made("call", token, kids, token.text);
    }

    /**
     * @param {Token} token
     * @returns {Expr}
     */
    brackets(token) {
        this.take("(");
        const first = this.expr();
        if (this.sees(")")) {
            const last = this.take(")");
            return { ...first, from: token.from, to: last.to };
        }
        this.take(",");
        const second = this.expr();
        this.take(")");
        return this.made("apply", token, [first, second], "pair");
    }

    /**
     * @param {string} open
     * @param {string} close
     */
    within(open, close) {
        this.take(open);
        const found = this.expr();
        this.take(close);
        return found;
    }

    /**
     * @param {Token} token
     * @returns {Expr}
     */
    worded(token) {
        const count = ARGUMENTS[token.text];
        this.take("word");
        if (count !== undefined) return this.builtin(token, count);
        switch (token.text) {
        case "true": case "false": return this.made("truth", token);
        case "uid": case "nbrLink": return this.made(token.text, token);
        case "sense": return this.made("sense", token, [], this.name().text);
        case "nbr": return this.made("nbr", token, [this.within("{", "}")]);
        case "if": {
            const kids = [this.within("(", ")"), this.within("{", "}"), this.within("{", "}")];
            return this.made("if", token, kids);
        }
        case "rep": case "share": return this.keeping(token);
        }
        this.place--;
        return this.stuck();
    }

    /**
     * @param {Token} token
     * @param {number} count
     * @returns {Expr}
     */
    builtin(token, count) {
        this.take("(");
        const kids = [this.expr()];
        while (kids.length < count) {
            this.take(",");
            kids.push(this.expr());
        }
        this.take(")");
        return this.made("apply", token, kids, token.text);
    }

    /**
     * @param {Token} token
     * @returns {Expr}
     */
    keeping(token) {
        const first = this.within("(", ")");
        this.take("{");
        this.take("(");
        const name = this.name();
        this.take(")");
        this.take("=>");
        const body = this.expr();
        this.take("}");
        return this.made(token.text, token, [first, body], name.text);
    }

    parameter() {
        const at = this.name();
        this.take(":");
        return { name: at.text, type: this.type(), at };
    }

    range() {
        const low = this.number();
        this.take("..");
        return [low, this.number()];
    }

    /**
     * The declaration of the tokens, of one of these forms.
     * @param {number} number
     * @param {string[]} forms
     * @returns {Declaration}
     */
    declaration(number, forms) {
        if (this.next === null || !forms.includes(this.next.text)) this.stuck();
        const form = this.take("word").text;
        /** @type {Declaration} */
        const found = { form, number, tokens: this.tokens, name: "", bounds: [], parameters: [] };
        if (form === "language") {
            if (!this.sees("2")) this.stuck();
            this.take("2");
        } else if (form === "ceiling") {
            found.bounds = [this.number()];
        } else if (form === "metric") {
            found.bounds = this.range();
        } else if (form === "input") {
            found.name = this.name().text;
            this.take(":");
            if (this.sees("bool")) this.take("bool");
            else {
                this.take("int");
                found.bounds = this.range();
            }
        } else {
            if (form === "def") {
                found.name = this.name().text;
                this.take("(");
                found.parameters = this.list(() => this.parameter());
                this.take(")");
                this.take(":");
                found.result = this.type();
            }
            this.take("=");
            found.body = this.expr();
        }
        this.take(";");
        return found;
    }
}

/**
 * The declarations of a text. Throws Stuck at the first token that has no place in the grammar.
 * @param {string} text
 * @returns {Declaration[]}
 */
export function readProgram(text) {
    /** @type {Declaration[]} */
    const found = [];
    let isSecond = false;
    for (const [at, piece] of piecesOf(text).entries()) {
        const last = found[at - 1]?.form;
        const items = last === "main" ? [] : ["input", "metric", "def", "main"];
        const forms = at === 0 ? ["language", "ceiling"] : last === "language" ? ["ceiling"] : items;
        found.push(new Reader(piece, isSecond).declaration(at + 1, forms));
        isSecond ||= found[0].form === "language";
    }
    if (found[found.length - 1]?.form !== "main") throw new Stuck(null);
    return found;
}
