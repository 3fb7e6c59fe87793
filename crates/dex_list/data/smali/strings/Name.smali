.class public Lo/été;
.super Lo/Odd;

.field static 中:I
