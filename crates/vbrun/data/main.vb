Imports System

Module Triangles
    Sub Main()
        Dim row As Integer = 0
        Dim sum As Integer
        While row < 4
            row = row + 1
            sum = sum + row
            Console.WriteLine(sum)
        End While
    End Sub
End Module
