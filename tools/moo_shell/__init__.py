"""The parts of `tools/moo-shell`, a prompt and a reader of scripts for worlds of moo.

`words` reads the command line. `session` does one line after another, for `prompt` and for `script`; `statements` puts lines together and
cuts them apart, and `meant` reads what people write who come from other prompts. `building` has the commands of LambdaMOO, and `elsewhere`
what to write for lines of LambdaMOO, SQL and psql that aren't done. `including` does the lines of files, `resuming` begins a script at the
line at which it stopped, `naming` has names and keeps them in files, and `ways` says what to type after a refusal. `commands` has the `\\`
words, of which `editing`, `watching`, `history` and `exporting` have one each. `batches` sends batches through a `door`, over HTTP to a
service or to a front; `service` runs a service of the shell's own. `going` says before a batch is sent what it destroys, and `losing` which
values. `world` asks about objects, and `looks` writes what is shown of them. `manual` reads the help of the program `moo`, and `helping`
shows it. `told` has the output, and `files` reads and writes files.
"""
