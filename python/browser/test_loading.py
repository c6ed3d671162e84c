"""How the page gets the library: it is compiled while it comes in, where the server says that it is WebAssembly."""

import unittest

from .page import browser

# what a square overlays to, and how often a module is compiled, while it comes in or afterwards; the answer of the
# server may be said to be of another type, or of none
LOADED = """
    const [type, done] = arguments, { compile, compileStreaming } = WebAssembly, { fetch } = globalThis;
    const counts = { streamed: 0, whole: 0 };
    WebAssembly.compileStreaming = (answer) => (counts.streamed++, compileStreaming.call(WebAssembly, answer));
    WebAssembly.compile = (bytes) => (counts.whole++, compile.call(WebAssembly, bytes));
    globalThis.fetch = async (address) => {
        const answer = await fetch(address);
        if (type === null) return answer;
        return new Response(await answer.arrayBuffer(), type ? { headers: { "Content-Type": type } } : {});
    };
    import("./engine/polyover.js")
        .then(async ({ load }) => (await load()).overlay([[[0, 0], [4, 0], [4, 4], [0, 4]]]))
        .catch(String)
        .then((found) => {
            Object.assign(WebAssembly, { compile, compileStreaming });
            globalThis.fetch = fetch;
            done([found, counts]);
        });
"""
SQUARE = [[[[0, 4], [0, 0], [4, 0], [4, 4]]]]


class Loading(unittest.TestCase):
    """The package of JavaScript in the page."""

    def test_module_is_compiled_while_it_comes_in(self):
        page = browser()
        page.size()
        page.load()
        streamed, whole = {"streamed": 1, "whole": 0}, {"streamed": 0, "whole": 1}
        for type_, counts in ((None, streamed), ("application/octet-stream", whole), ("", whole)):
            self.assertEqual(page.run_later(LOADED, type_), [SQUARE, counts], type_)


if __name__ == "__main__":
    unittest.main()
