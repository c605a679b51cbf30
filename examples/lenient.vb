Option Strict Off
Imports System

Module Lenient
    Sub Main()
    End Sub
End Module
