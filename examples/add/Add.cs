// The smallest program with an import: `plhost imports` prints `native add` for it.
// Compiled by `mcs` it is also the file data/app.dll of the crate plhost.
using System.Runtime.InteropServices;

static class Add
{
    [DllImport("native")]
    static extern int add(int a, int b);

    static int Main() => add(2, 3);
}
