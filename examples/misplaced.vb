Imports System

Module Misplaced
    Sub Main()
        Class X
        End Class
    End Sub
End Module
