// A program whose imports have nearly every kind of parameter, result, field and callback, for the checks of stubs. It is never run.
using System;
using System.Runtime.InteropServices;
using Microsoft.Win32.SafeHandles;

interface IShape { int Corners(); }
interface INamed : IShape { string Name(); }
class Square : INamed
{
    // explicit implementations are rows of MethodImpl
    int IShape.Corners() => 4;
    string INamed.Name() => "square";
    public class Inner { public struct Deep { public int a; public Pair b; } public class Deeper { } }
}
// generic types make rows of TypeSpec
class Box<T> { public T item; public T[] items; }
class IntBox : Box<int> { public Box<string> texts; public static int[,] plane; }

enum Colour : byte { Red, Green }
enum Wide : long { None }
enum Plain { One }

class Handle : SafeHandle
{
    Handle() : base(IntPtr.Zero, true) { }
    public override bool IsInvalid => false;
    protected override bool ReleaseHandle() => true;
}
class MinusOne : SafeHandleZeroOrMinusOneIsInvalid
{
    MinusOne() : base(true) { }
    protected override bool ReleaseHandle() => true;
}

struct Pair { public int a, b; }
struct Mixed { public byte a; public long b; }
[StructLayout(LayoutKind.Sequential, Pack = 1)] struct Packed { public byte a; public long b; }
[StructLayout(LayoutKind.Sequential, Pack = 2)] struct HoldsPacked { public byte a; public Packed b; public int c; }
[StructLayout(LayoutKind.Sequential, Size = 40)] struct Large { public int a; }
[StructLayout(LayoutKind.Sequential, Size = 2)] struct Small { public int a; }
[StructLayout(LayoutKind.Explicit)] struct Union { [FieldOffset(0)] public int a; [FieldOffset(0)] public long b; }
[StructLayout(LayoutKind.Explicit)] struct BadUnion { [FieldOffset(0)] public bool a; [FieldOffset(0)] public long b; }
[StructLayout(LayoutKind.Explicit, Size = 12, Pack = 4)] struct Placed { [FieldOffset(1)] public short a; [FieldOffset(4)] public long b; }
[StructLayout(LayoutKind.Auto)] struct Auto { public int a; }
struct Empty { }
struct Three { public long a, b, c; }
struct Named { public string name; public int id; }
[StructLayout(LayoutKind.Sequential, CharSet = CharSet.Unicode)] struct WideNamed { public string name; public char c; }
struct Inline
{
    [MarshalAs(UnmanagedType.ByValTStr, SizeConst = 5)] public string text;
    [MarshalAs(UnmanagedType.ByValArray, SizeConst = 3)] public short[] numbers;
    [MarshalAs(UnmanagedType.ByValArray, SizeConst = 2, ArraySubType = UnmanagedType.I1)] public bool[] flags;
}
[StructLayout(LayoutKind.Sequential, CharSet = CharSet.Unicode)] struct WideInline
{
    [MarshalAs(UnmanagedType.ByValTStr, SizeConst = 5)] public string text;
    [MarshalAs(UnmanagedType.ByValArray, SizeConst = 2)] public char[] letters;
    [MarshalAs(UnmanagedType.ByValArray, SizeConst = 2)] public Pair[] pairs;
}
unsafe struct Pointers { public int* a; public IntPtr b; public UIntPtr c; public Colour d; public Wide e; }
struct Flags { public bool a; [MarshalAs(UnmanagedType.U1)] public bool b; public char c; [MarshalAs(UnmanagedType.U2)] public char d; }
struct WithObject { public object a; }
struct WithDouble { public double a; public int b; }
struct WithArray { public int[] a; }
struct WithHandle { public Handle a; }
struct Visitor { public Callback call; public int scale; }
struct Outer { public Visitor inner; public Pair pair; }

delegate void Callback(int x);
delegate bool Everything(byte a, char b, Colour c, ref long d, [Out] out Pair e, string f, Named g, IntPtr h, Wide i);
delegate int Lengths(int count, [MarshalAs(UnmanagedType.LPArray, SizeParamIndex = 0)] int[] values);
delegate int Counts([In, Out, MarshalAs(UnmanagedType.LPArray, SizeConst = 4)] Pair[] values);
delegate int NoLength(int[] values);
delegate int Letters([MarshalAs(UnmanagedType.LPArray, SizeConst = 4, ArraySubType = UnmanagedType.U2)] char[] values);
delegate int ShortLetters([MarshalAs(UnmanagedType.LPArray, SizeConst = 4)] char[] values);
delegate string GivesText();
delegate Pair GivesPair(Pair a);
delegate Named GivesNamed();
delegate void TakesNamed(ref Named a);
delegate void TakesOut([Out] string a);
delegate void TakesCallback(Callback a);
delegate void TakesVisitor(Visitor a);
struct Ring { public RingCall call; }
delegate void RingCall(Ring a);
unsafe delegate int* GivesPointer(int* a);
delegate double GivesDouble();
delegate void TakesEmpty(Empty a);

static unsafe class Program
{
    [DllImport("words")] static extern sbyte integers(byte a, sbyte b, short c, ushort d, int e, uint f, long g, ulong h, IntPtr i, UIntPtr j);
    [DllImport("words")] static extern Colour enums(Colour a, Wide b, Plain c, ref Wide d);
    [DllImport("words")] static extern int descriptors([MarshalAs(UnmanagedType.U4)] int a, [MarshalAs(UnmanagedType.SysInt)] long b, [MarshalAs(UnmanagedType.I8)] UIntPtr c);
    [DllImport("words")] static extern int narrow([MarshalAs(UnmanagedType.I2)] int a);
    [DllImport("words")] static extern bool bools(bool a, [MarshalAs(UnmanagedType.I1)] bool b, [MarshalAs(UnmanagedType.U1)] ref bool c, [MarshalAs(UnmanagedType.Bool)] bool d);
    [DllImport("words")] static extern void variant([MarshalAs(UnmanagedType.VariantBool)] bool a);
    [DllImport("words")] static extern char chars(char a, [MarshalAs(UnmanagedType.U2)] char b, [MarshalAs(UnmanagedType.I1)] char c);
    [DllImport("words", CharSet = CharSet.Unicode)] static extern char wide_chars(char a, ref char b, [MarshalAs(UnmanagedType.U1)] char c);
    [DllImport("words", CharSet = CharSet.Auto)] static extern char auto_chars(char a, string b);
    [DllImport("words")] static extern int* pointers(int* a, void* b, ref int* c, Pair** d);
    [DllImport("words")] static extern void floats(int a, float b);
    [DllImport("words")] static extern decimal decimals();
    [DllImport("words")] static extern int objects(int a, object b);

    [DllImport("texts", SetLastError = true)] static extern string texts(string a, [MarshalAs(UnmanagedType.LPWStr)] string b, [MarshalAs(UnmanagedType.LPStr)] string c);
    [DllImport("texts", CharSet = CharSet.Unicode)] static extern string wide_texts(string a, [In] ref string b, out string c);
    [DllImport("texts")] static extern void bstr([MarshalAs(UnmanagedType.BStr)] string a);
    [DllImport("texts")] static extern void out_text([Out] string a);
    [DllImport("texts")] [return: MarshalAs(UnmanagedType.LPWStr)] static extern string wide_result();

    [DllImport("values")] static extern Pair pairs(Pair a, ref Pair b, out Pair c, [In] ref Pair d);
    [DllImport("values")] static extern Three threes(Three a, Mixed b, Packed c, HoldsPacked d);
    [DllImport("values")] static extern Large larges(Large a, Small b, Placed c, Union d);
    [DllImport("values")] static extern void bad_union(BadUnion a);
    [DllImport("values")] static extern void automatic(Auto a);
    [DllImport("values")] static extern void empty(int a, Empty b);
    [DllImport("values")] static extern void named(Named a, ref Named b, WideNamed c);
    [DllImport("values")] static extern Named named_result();
    [DllImport("values")] static extern Inline inline(Inline a, WideInline b, ref Inline c);
    [DllImport("values")] static extern Pointers of_pointers(Pointers a, Flags b);
    [DllImport("values")] static extern void with_object(WithObject a);
    [DllImport("values")] static extern void with_double(ref WithDouble a);
    [DllImport("values")] static extern void with_array(WithArray a);
    [DllImport("values")] static extern void with_handle(WithHandle a);
    [DllImport("values")] static extern void out_value([Out] Pair a);
    [DllImport("values")] static extern void nested(Square.Inner.Deep a, ref Square.Inner.Deep b);
    [DllImport("values")] static extern void described([MarshalAs(UnmanagedType.Struct)] Pair a);

    [DllImport("arrays")] static extern void lent(int[] a, byte[] b, IntPtr[] c, Colour[] d, Pair[] e, Union[] f, [Out] long[] g);
    [DllImport("arrays")] static extern void copied(bool[] a, char[] b, [Out] string[] c, [In, Out] Named[] d, [In] Flags[] e, Inline[] f);
    [DllImport("arrays", CharSet = CharSet.Unicode)] static extern void wide(char[] a, string[] b, [Out] bool[] c);
    [DllImport("arrays")] static extern void elements([MarshalAs(UnmanagedType.LPArray, ArraySubType = UnmanagedType.LPWStr)] string[] a, [MarshalAs(UnmanagedType.LPArray, ArraySubType = UnmanagedType.I1)] bool[] b, [MarshalAs(UnmanagedType.LPArray, ArraySubType = UnmanagedType.U2)] char[] c, [MarshalAs(UnmanagedType.LPArray, SizeConst = 3)] int[] d);
    [DllImport("arrays")] static extern void wrong_element([MarshalAs(UnmanagedType.LPArray, ArraySubType = UnmanagedType.I2)] int[] a);
    [DllImport("arrays")] static extern void by_reference(ref int[] a);
    [DllImport("arrays")] static extern int[] result();
    [DllImport("arrays")] static extern void nested(int[][] a);
    [DllImport("arrays")] static extern void plane(int[,] a);
    [DllImport("arrays")] static extern void doubles(double[] a);
    [DllImport("arrays")] static extern void empties(Empty[] a);

    [DllImport("calls")] static extern void callback(Callback a, [MarshalAs(UnmanagedType.FunctionPtr)] Callback b);
    [DllImport("calls")] static extern void everything(Everything a);
    [DllImport("calls")] static extern void lengths(Lengths a, Counts b, Letters c);
    [DllImport("calls")] static extern void no_length(NoLength a);
    [DllImport("calls")] static extern void short_letters(ShortLetters a);
    [DllImport("calls")] static extern void gives_text(GivesText a);
    [DllImport("calls")] static extern void gives_pair(GivesPair a);
    [DllImport("calls")] static extern void gives_named(GivesNamed a);
    [DllImport("calls")] static extern void takes_named(TakesNamed a);
    [DllImport("calls")] static extern void takes_out(TakesOut a);
    [DllImport("calls")] static extern void takes_callback(TakesCallback a);
    [DllImport("calls")] static extern void takes_visitor(TakesVisitor a);
    [DllImport("calls")] static extern void ring(RingCall a);
    [DllImport("calls")] static extern void ring_value(Ring a);
    [DllImport("calls")] static extern void gives_pointer(GivesPointer a);
    [DllImport("calls")] static extern void gives_double(GivesDouble a);
    [DllImport("calls")] static extern void takes_empty(TakesEmpty a);
    [DllImport("calls")] static extern int each(int[] a, int n, Visitor v);
    [DllImport("calls")] static extern Callback callback_result();
    [DllImport("calls")] static extern void callback_reference(ref Callback a);
    [DllImport("calls")] static extern void outer(Outer a, ref Visitor b);
    [DllImport("calls")] static extern void callback_array(Callback[] a);
    [DllImport("calls")] static extern void out_callback([Out] Callback a);

    [DllImport("handles", SetLastError = true)] static extern int use(Handle a, MinusOne b, SafeHandle c);
    [DllImport("handles")] static extern Handle open();
    [DllImport("handles")] static extern void reference(ref Handle a);
    [DllImport("handles", PreserveSig = false)] static extern int preserve();
    [DllImport("handles", EntryPoint = "a name")] static extern void renamed([In] int a, [Out] int b);

    static void Main()
    {
        // locals make rows of StandAloneSig
        var box = new Box<Pair> { items = new Pair[2] };
        foreach (Pair it in box.items) Console.WriteLine(it.a);
    }
}
