// A program that takes functions from several native libraries, by every kind of name that DllImport allows.
//
// `plhost imports` prints a line for each import, in the order of the methods: the library's name, a space, and the name
// that is looked for in it. Bytes 0x21 to 0x7E other than the backslash stand for themselves; of every other byte of the
// names' UTF-8 the line has a backslash and two hexadecimal digits, so that a name never holds a space or a line end.
// The file `expected` beside this one has these lines, written by that rule and not by any program.
using System;
using System.Runtime.InteropServices;

static class Text
{
    // Without an EntryPoint the method's name is looked for.
    [DllImport("libc")]
    public static extern IntPtr strlen(string text);

    // With one, that name is looked for, and the method has a name of its own.
    [DllImport("libc", EntryPoint = "toupper")]
    public static extern int Upper(int letter);
}

static class Ruler
{
    // A library's file name may have spaces: a space is written \20.
    [DllImport("ruler library", CharSet = CharSet.Unicode, SetLastError = true)]
    public static extern int measure(string text);

    // A path with backslashes: each is written \5c.
    [DllImport(@"C:\Program Files\Ruler\ruler.dll", CallingConvention = CallingConvention.StdCall)]
    public static extern int measure_all(string[] texts, int count);

    // Letters outside ASCII: the bytes of their UTF-8 are written, two for each of these letters.
    [DllImport("größe", EntryPoint = "länge")]
    public static extern double Length(double scale);

    // Three bytes for each of these, and four for the last.
    [DllImport("ものさし", EntryPoint = "長さ📏")]
    public static extern double LengthInJapanese(double scale);

    // An entry may be a number after a number sign, which stands for itself.
    [DllImport("ruler library", EntryPoint = "#7")]
    public static extern void Seventh();
}

static class Edges
{
    // The first and the last byte that stand for themselves, and their neighbours on both sides, which don't.
    [DllImport("edges", EntryPoint = " !~\x7f")]
    public static extern void First();

    // A tab and a line end.
    [DllImport("tab\there", EntryPoint = "line\nend")]
    public static extern void Second();

    // What looks like an escape already: its backslash is written as any other.
    [DllImport(@"a\20b", EntryPoint = @"\5c")]
    public static extern void Third();
}

static class Program
{
    // An import in the last class: lines come in the order of the methods, whatever their libraries.
    [DllImport("libc")]
    static extern int getpid();

    // Only the imports of the C library are called, so that this runs where a C library is all there is.
    static int Main()
    {
        Console.WriteLine("{0} letters, {1}", Text.strlen("ruler"), (char) Text.Upper('x'));
        return getpid() > 0 ? 0 : 1;
    }
}
