"""The name of the plugin and its help."""

NAME = "kubectl-crdx"

HELP = """\
Runs crdx on a definition from a cluster, or from a file of YAML or JSON

As a plugin of kubectl, which is any program of this name on the path, this is
`kubectl crdx`. It gets a CustomResourceDefinition, relaxes it as crdx-relax
does, and runs a command of crdx on it with --large, --why and, where no profile
is named, --profile=cluster. One line on standard error says what was relaxed,
and so is not judged. Under check, further lines name what a cluster refuses and
relaxing hides.

Usage: kubectl crdx COMMAND [NAME] [VERSION] [PATH | OBJECT...] [OPTIONS]

Arguments:
  <COMMAND>
          A command of crdx, such as check, explain, validate or sample; or
          relax, which prints the relaxed definition, and on standard error a
          line for each keyword that was changed
  [NAME]
          The name of the definition, such as issuers.certs.example.org: among
          the documents of -f, where it may be left out if there is only one, or
          else in the cluster
  [VERSION]
          The name of one of its versions; without it the version that the
          objects name, or else the storage version, and for relax all
  [PATH]
          For explain: the path of a field, which begins with /
  [OBJECT]...
          For commands on objects: files of JSON or YAML with objects; - is
          standard input. The name of the first has a dot or a slash, if there
          is no VERSION. The documents of -f are objects too, where no
          definition is beside them. Without any, the objects are those of this
          kind beside the definition, or else on standard input. An object of
          another kind is refused

Options:
  -f, --filename <FILE>
          A file of JSON or YAML with the definition, perhaps among other
          documents; - is standard input. It may be given several times
      --exact
          Does not relax the definition
      --context <NAME>
          The context of kubectl for a definition in the cluster
      --kubeconfig <FILE>
          The kubeconfig of kubectl for a definition in the cluster
  -h, --help
          Prints this text, and after a command what that does and its options
      --version
          Prints which crdx is run, and its version

All other options are those of the command, such as --limit. `pools` adds
values that the patterns and formats let through, and `sample` and `cover`
without --pools take their values from there. JSON is taken as it is. kubectl
makes JSON of YAML, without a cluster; where there is none, yq does. The exit
status is that of crdx, and of several objects the greatest.

The program crdx is the one that the variable CRDX names, or else the one beside
this program, on the path, or in the repository of this program. It is never
built here.

Examples:
  kubectl crdx explain issuers.certs.example.org
  kubectl crdx check -f crd.yaml
  kubectl crdx validate -f crd.yaml object.yaml
  kubectl crdx sample -f crd.yaml --limit 6 --name web

Exit status:
  0   crdx has answered, or the relaxed definition is printed.
  1   As of crdx: the schema breaks rules, the object has faults, and the like.
  2   The command line is refused.
  3   An input is refused, or is neither JSON nor YAML.
  4   A file or the cluster could not be read, or a write failed.
  5   There was not enough memory.
  70  There is no crdx to run, or it is not built.
"""

# what `relax --help` says, in the form of the help of a command of crdx
RELAX = """\
Prints a definition with a wider schema, which crdx accepts

The schemas of all its versions are relaxed, or that of VERSION alone, which is
then the only one that is printed. On standard error is a line for each keyword
that was changed.

Usage: relax
"""
