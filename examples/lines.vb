' Logical lines: continuations, comments, a region, names in brackets and names that ignore case.
Imports System
Module Lines
#Region "the program"
    Sub Main()
        Dim [Step] As Integer _
            = &H2
        Dim Größe As Integer

        REM a line goes on behind an operator and an opening bracket, and before a closing one
        Größe = [Step] *
            [STEP]
        Console.WriteLine( ' a comment may lie between
            GRÖßE
        )
    End Sub
#End Region
End Module
