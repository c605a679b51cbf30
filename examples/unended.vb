Imports System

Module Unended
    Sub Main()
        If 1 = 1 Then
    End Sub
End Module
