.class public La/A;
.super Ljava/lang/Object;
.field public g:La/B;
