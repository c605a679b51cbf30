Imports System

Module Overflow
    Sub Main()
        Dim i As Integer = 2147483647
        Console.WriteLine(i)
        i = i + 1
        Console.WriteLine(i)
    End Sub
End Module
