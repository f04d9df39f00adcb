// A program with a row in nearly every metadata table that a compiler writes, for the check `damaged`. It is never run.
using System;
using System.Collections.Generic;
using System.Runtime.CompilerServices;
using System.Runtime.InteropServices;
using System.Security.Permissions;

[assembly: TypeForwardedTo(typeof(Uri))]

interface IShape { int Corners(); }

// a class layout with its field layouts, and a field that has a descriptor
[StructLayout(LayoutKind.Explicit, Pack = 4, Size = 24)]
struct Both
{
    [FieldOffset(0)] public int number;
    [FieldOffset(8), MarshalAs(UnmanagedType.LPStr)] public string text;
}

class Square : IShape
{
    // an explicit implementation is a row of MethodImpl
    int IShape.Corners() => 4;

    public const int Sides = 4;
    public event Action Drawn;
    public string Name { get; set; }

    public void Draw(int times = 1)
    {
        // a local variable makes a row of StandAloneSig, and the first values a field with data
        int[] steps = { 1, 2, 3, 4, 5, 6, 7, 8 };
        for (int n = 0; n < times; n++) Console.WriteLine(steps[n]);
        if (Drawn != null) Drawn();
    }
}

class Box<T> where T : IShape
{
    public List<T> shapes = new List<T>();

    public U As<U>(U shape) where U : class, T => shape;

    public class Lid { }
}

static class Program
{
    [DllImport("first")] static extern int one([MarshalAs(UnmanagedType.I1)] bool is_set);
    [DllImport("second", EntryPoint = "two")] static extern void Two(ref Both both, [In, Out] int[] all);
    [DllImport("first")] static extern void three();

    [SecurityPermission(SecurityAction.Demand, UnmanagedCode = true)]
    static int Main()
    {
        var both = new Both { number = one(true) };
        Two(ref both, new[] { 1, 2 });
        three();
        new Box<Square>().As(new Square()).Draw();
        return 0;
    }
}
