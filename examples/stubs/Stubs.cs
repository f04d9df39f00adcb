// A program that wraps a made-up mail library, with each way in which an argument or a result crosses to native code.
//
// `plhost stubs` prints for each import what a call of it does: a line for each argument, the arguments that are read back
// after the call (`back`), those for which something is lent that ends with the call, last to first (`end`), the result, and
// `errno` where the C library's error number is kept. An import that can't be called is one line: which argument stands in the
// way, and why. The file `expected` beside this one has these lines, written by these rules and not by any program.
using System;
using System.Runtime.InteropServices;

// A struct lies as C lays it out: 4 bytes, 4 bytes of padding, 8 bytes.
struct Stamp
{
    public int zone;
    public long seconds;
}

// A text in a struct is a pointer of 8 bytes; one in place has as many bytes as it says.
struct Address
{
    public string name;
    [MarshalAs(UnmanagedType.ByValTStr, SizeConst = 24)]
    public string city;
    public bool isPrivate;
}

// A packed struct has no padding, and keeps its own packing within another struct.
[StructLayout(LayoutKind.Sequential, Pack = 1)]
struct Header
{
    public byte kind;
    public int size;
}

enum Priority : short { Low, High }

delegate bool Filter(int number, string subject);

// A pointer to function that takes an array has to say how long that array is.
delegate void Seen([MarshalAs(UnmanagedType.LPArray, SizeParamIndex = 1)] int[] numbers, int count);
delegate void SeenWithoutLength(int[] numbers);

class Mailbox : SafeHandle
{
    Mailbox() : base(IntPtr.Zero, true) { }
    public override bool IsInvalid => handle == IntPtr.Zero;
    protected override bool ReleaseHandle() => true;
}

static class Mail
{
    // Integers, an enum and a bool are words; a bool has 4 bytes unless it says 1.
    [DllImport("mail")]
    static extern int flag(uint number, Priority priority, bool set, [MarshalAs(UnmanagedType.I1)] bool quiet);

    // A text is a temporary of UTF-8, or of UTF-16 where the import's charset is Unicode. The error number is kept.
    [DllImport("mail", SetLastError = true)]
    static extern IntPtr mail_open(string path);
    [DllImport("mail", CharSet = CharSet.Unicode)]
    static extern string mail_subject(int number, string fallback);

    // A value by reference is copied in and out; with `out` only out, with [In] only in.
    [DllImport("mail")]
    static extern void mail_stamp(ref Stamp stamp, out Header header, [In] ref Address address);

    // By value up to 16 bytes are words, and more are a pointer to a temporary.
    [DllImport("mail")]
    static extern Header mail_header(Stamp stamp, Header header, Address address);

    // An array of plain numbers or structs is lent, and native code sees the array itself; other elements are copied.
    [DllImport("mail")]
    static extern int mail_numbers(int[] numbers, Stamp[] stamps, bool[] read, [Out] string[] subjects);

    // Callbacks and handles.
    [DllImport("mail")]
    static extern int mail_each(Mailbox box, Filter filter, Seen seen);

    // What can't be called, and why.
    [DllImport("mail")]
    static extern double mail_size(Mailbox box);
    [DllImport("mail")]
    static extern void mail_watch(Mailbox box, SeenWithoutLength seen);
    [DllImport("mail")]
    static extern void mail_move(int number, [MarshalAs(UnmanagedType.I8)] int to);
    [DllImport("mail")]
    static extern void mail_rename(string from, [Out] string to);
    [DllImport("mail", EntryPoint = "mail copy", PreserveSig = false)]
    static extern int Copy(int number);
}

static class Program
{
    static void Main() { }
}
