Imports System

Module Endless
    Sub Main()
        Dim i As Integer
        While i < 1
        End While
    End Sub
End Module
