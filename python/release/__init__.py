"""The library `libfc`, the WebAssembly module, and the release: how they are made of what is proved in the checkout."""
