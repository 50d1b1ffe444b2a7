"""Remarks on the C files of targets and of what they stand on, in shares, by Bazel. No test runs it;
it was run by hand, by Bazel 4.2.3.

    load("//:check.bzl", "remarks")
    remarks(name = "remarks", targets = ["//:program"])

behind that in a BUILD file, `bazel build //:remarks --action_env=PATH` writes bazel-bin/remarks.txt.
check-c and gcc have to be on the path, on other machines too.
"""

Facts = provider(fields = ["files"])

def _facts_of(target, ctx):
    made = []
    if CcInfo in target and hasattr(ctx.rule.files, "srcs"):
        context = target[CcInfo].compilation_context
        words = ctx.actions.args()
        words.add_all(getattr(ctx.rule.attr, "copts", []))
        words.add_all(context.includes, before_each = "-I")
        words.add_all(context.quote_includes, before_each = "-iquote")
        words.add_all(context.system_includes, before_each = "-isystem")
        words.add_all(context.defines, before_each = "-D")
        words.add_all(context.local_defines, before_each = "-D")
        for source in ctx.rule.files.srcs:
            if source.extension == "c":
                name = "%s.checked/%s.facts" % (target.label.name, source.short_path)
                facts = ctx.actions.declare_file(name)
                ctx.actions.run_shell(
                    inputs = depset([source], transitive = [context.headers]),
                    outputs = [facts],
                    arguments = [words, "--emit", facts.path, source.path],
                    command = 'exec check-c "$@"',
                    use_default_shell_env = True,
                )
                made.append(facts)
    below = [one[Facts].files for one in getattr(ctx.rule.attr, "deps", []) if Facts in one]
    return [Facts(files = depset(made, transitive = below))]

facts_of = aspect(implementation = _facts_of, attr_aspects = ["deps"])

def _remarks(ctx):
    facts = depset(transitive = [target[Facts].files for target in ctx.attr.targets])
    told = ctx.actions.declare_file(ctx.label.name + ".txt")
    named = ctx.actions.args()
    named.use_param_file("@%s", use_always = True)
    named.add_all(facts)
    ctx.actions.run_shell(
        inputs = facts,
        outputs = [told],
        arguments = [told.path, named],
        command = 'exec check-c --merge "$2" > "$1"',
        use_default_shell_env = True,
    )
    return [DefaultInfo(files = depset([told]))]

remarks = rule(implementation = _remarks, attrs = {"targets": attr.label_list(aspects = [facts_of])})
