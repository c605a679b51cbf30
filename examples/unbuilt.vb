Imports System

Class Unbuilt
End Class
