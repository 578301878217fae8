"""Second readers of what is accepted. They judge nothing: they read or load as tools, kernels and dynamic loaders do.
The constants of the headers are those of bindings/python, which `support` finds."""

import support  # pylint: disable=unused-import
